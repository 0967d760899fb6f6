"""What `special info` prints of answers that have very many lines. Their time is to grow with the lines, and not with their square."""

from harness import expect, limits

BEFORE = "cost unsupported\navailability unsupported\n"

ANSWERING = """
greet()
for _, words in requests():
    if words[0] == "{}":
        {}
    else:
        say("UNSUPPORTED-REQUEST")
"""


def answering(room, request, said):
    room.child("answering", ANSWERING.format(request, said))
    return room.special("info", "./answering")


@limits(60)
def case_five_thousand_settings(room):
    said = 'say(*[f"CONFIG name{n} said of {n}" for n in range(5000)], "CONFIGEND")'
    lines = "".join(f"config name{n} said of {n}\n" for n in range(5000))
    told = lines + BEFORE + "infos unsupported\nexport unsupported\n"
    expect(answering(room, "LISTCONFIGS", said), (0, told, ""))


@limits(60)
def case_five_thousand_infos(room):
    said = 'say(*[line for n in range(5000) for line in (f"INFOFIELD name{n}", f"INFOVALUE value {n}")], "INFOEND")'
    lines = "".join(f"info name{n}=value {n}\n" for n in range(5000))
    told = "configs unsupported\n" + BEFORE + lines + "export unsupported\n"
    expect(answering(room, "GETINFO", said), (0, told, ""))


@limits(60)
def case_twenty_thousand_asides_between_a_field_and_its_value(room):
    said = 'say("INFOFIELD a", *["DEBUG x"] * 20000, "INFOVALUE b", "INFOFIELD c", "INFOVALUE d", "INFOEND")'
    told = "configs unsupported\n" + BEFORE + "info a=b\ninfo c=d\nexport unsupported\n"
    expect(answering(room, "GETINFO", said), (0, told, ""))


@limits(60)
def case_an_aside_before_each_of_five_thousand_lines(room):
    said = 'say(*[line for n in range(2500) for line in ("PROGRESS 1", f"INFOFIELD n{n}", "DEBUG x", f"INFOVALUE v{n}")], "INFOEND")'
    lines = "".join(f"info n{n}=v{n}\n" for n in range(2500))
    told = "configs unsupported\n" + BEFORE + lines + "export unsupported\n"
    expect(answering(room, "GETINFO", said), (0, told, ""))


@limits(60)
def case_a_second_field_after_thousands_of_asides_is_foul(room):
    said = 'say("INFOFIELD a", *["DEBUG x"] * 5000, "INFOFIELD b", "INFOEND")'
    told = "configs unsupported\n" + BEFORE + "foul INFOFIELD b\n"
    expect(answering(room, "GETINFO", said), (1, told, ""))
