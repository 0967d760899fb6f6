"""A content in chunks: a store and a get go on where a child was killed."""

from harness import UUID, expect, limits

# It keeps contents in a folder, and writes down what it is asked for. Where there is a file `dying`, it is killed in the
# sixth transfer.
REMOTE = """
n=0
echo "VERSION 1"
while IFS= read -r line; do
  case "${line%% *}" in
    EXTENSIONS) echo EXTENSIONS ;;
    PREPARE) echo PREPARE-SUCCESS ;;
    CHECKPRESENT)
      key=${line#CHECKPRESENT }
      echo "$line" >>asked
      if [ -f "there/$key" ]; then echo "CHECKPRESENT-SUCCESS $key"; else echo "CHECKPRESENT-FAILURE $key"; fi ;;
    TRANSFER)
      rest=${line#TRANSFER }
      way=${rest%% *}
      rest=${rest#* }
      key=${rest%% *}
      file=${rest#* }
      echo "$way $key" >>asked
      n=$((n + 1))
      if [ -f dying ] && [ $n = 6 ]; then kill -9 $$; fi
      if [ "$way" = STORE ]; then from=$file to=there/$key; else from=there/$key to=$file; fi
      if cp -- "$from" "$to"; then echo "TRANSFER-SUCCESS $way $key"; else echo "TRANSFER-FAILURE $way $key no"; fi ;;
    REMOVE)
      key=${line#REMOVE }
      echo "$line" >>asked
      rm -f -- "there/$key"
      echo "REMOVE-SUCCESS $key" ;;
    *) echo UNSUPPORTED-REQUEST ;;
  esac
done
"""

MIB = 1 << 20
KEY = "WORM-s10485760--ten"


def chunks(word, first, last):
    """Requests of one word for these chunks."""
    return [f"{word} WORM-s10485760-S1048576-C{number}--ten" for number in range(first, last + 1)]


# A task, whether the child is killed in it, its answer, and what the remote is asked for.
STEPS = [
    (f"store {KEY} content", True, "ended eof", chunks("CHECKPRESENT", 1, 1) + chunks("STORE", 1, 6)),
    (f"store {KEY} content", False, "stored", chunks("CHECKPRESENT", 1, 6) + chunks("STORE", 6, 10)),
    (f"get {KEY} got", True, "ended eof", chunks("RETRIEVE", 1, 6)),
    (f"get {KEY} got", False, "got", chunks("RETRIEVE", 6, 10)),
    (f"check {KEY}", False, "present", chunks("CHECKPRESENT", 1, 10)),
    (f"drop {KEY}", False, "dropped", chunks("REMOVE", 1, 10) + [f"REMOVE {KEY}"]),
    (f"check {KEY}", False, "absent", [f"CHECKPRESENT {KEY}"]),
]


@limits(60)
def case_a_store_and_a_get_go_on_where_a_child_was_killed(room):
    room.script("remote.sh", REMOTE)
    room.mkdir("there")
    room.mkdir("work")
    # ten chunks, no two of which are equal
    content = (bytes(range(251)) * (10 * MIB // 251 + 1))[: 10 * MIB]
    room.write("content", content)
    words = ["--program", "./remote.sh", "--uuid", UUID, "--starts", "1", "--work", "work", "--keep", "kept"]
    for number, (task, killed, answer, asked) in enumerate(STEPS, 1):
        if killed:
            room.write("dying")
        done = room.special("run", *words, "--chunk", str(MIB), input=task + "\n")
        if killed:
            (room.folder / "dying").unlink()
        status = 0 if answer in ("stored", "got", "present", "dropped") else 1
        expect(done, (status, f"1 {answer}\n", ""), f"step {number}, {task}")
        expect(room.text("asked").splitlines(), asked, f"step {number}, what the remote is asked for")
        (room.folder / "asked").unlink()
        if answer == "got":
            expect(room.read("got") == content, True, "what was got is what was stored")
    expect([path.name for path in (room.folder / "there").iterdir()], [], "what the remote has at the end")
