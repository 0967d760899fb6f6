"""The input of `special run`, and keys: which lines are tasks, and what is said of those that aren't."""

import hashlib
import time

from harness import SPECIAL, UUID, Done, as_bytes, as_text, expect, finish, limits, require, skip, table

RUN = ["run", "--program", "none", "--uuid", UUID, "--jobs", "1", "--starts", "1"]
LINE = 65_536
LINES = 65_536
BYTES = 67_108_864


def given(room, data, size, *words):
    """A run over an input that comes in pieces of so many bytes. Its program can't be started."""
    process = room.start([SPECIAL, *RUN, *words])
    data = as_bytes(data)
    for at in range(0, len(data), size):
        process.stdin.write(data[at:at + size])
        process.stdin.flush()
    return finish(process)


def refused(number, reason):
    return Done(3, "", f"special: line {number}: {reason}\n")


# An input, and the tasks that its lines are.
@table([
    ("each kind", "store WORM--a f\nget WORM--b g\ncheck WORM--c\ndrop WORM--d\n",
     ["store WORM--a f", "get WORM--b g", "check WORM--c", "drop WORM--d"]),
    ("without the last line's end", "store WORM--a f\ndrop WORM--b", ["store WORM--a f", "drop WORM--b"]),
    ("nothing", "", []),
    ("a file with spaces", "get WORM--a a b\n", ["get WORM--a a b"]),
    ("a file that begins and ends with a space", "get WORM--a  f \n", ["get WORM--a  f "]),
    ("a file with a byte 13", "get WORM--a f\r\n", ["get WORM--a f\r"]),
    ("a file in other letters", "store SHA256-s3--ab ä ö\n", ["store SHA256-s3--ab ä ö"]),
    ("a key with fields", "check WORM-s1-m2--x-y\n", ["check WORM-s1-m2--x-y"]),
    ("a key with signs", "drop URL--http&c%%a\n", ["drop URL--http&c%%a"]),
    ("a key that is no UTF-8", "drop WORM--\udcff\n", ["drop WORM--\udcff"]),
])
def lines_are_tasks(room, text, tasks):
    for size in (1, 2, 3, 7, 4096):
        fails = [f"{n} {'startfault' if n == 1 else 'nochild'}\n" for n in range(1, len(tasks) + 1)]
        # A file to store is looked for once there is a child.
        done = given(room, text, size, "--journal", "journal")
        expect(done, Done(1 if tasks else 0, "".join(fails), ""), f"in pieces of {size} bytes")
        text_of_run = room.text("journal")
        got = [line[5:] for line in text_of_run.split("\n") if line.startswith("task ")]
        expect(got, tasks, f"the tasks, in pieces of {size} bytes")


@table([
    ("an empty line", "\n", 1, "word"),
    ("another word", "x", 1, "word"),
    ("fetch", "fetch x", 1, "word"),
    ("stored", "stored WORM--a f\n", 1, "word"),
    ("a space first", " drop WORM--b\n", 1, "word"),
    ("upper case", "Drop WORM--b\n", 1, "word"),
    ("an empty second line", "drop WORM--b\n\n", 2, "word"),
    ("no key", "check", 1, "key"),
    ("a word alone", "get\n", 1, "key"),
    ("a word and a space", "get \n", 1, "key"),
    ("two spaces before the key", "store  f\n", 1, "key"),
    ("what is no key", "check x\n", 1, "key"),
    ("a key without its name", "drop WORM-a\n", 1, "key"),
    ("a key with a space", "check WORM--a b\n", 1, "unsendable"),
    ("a chunk's key with a space", "check WORM-s9-S4-C1--a b\n", 1, "unsendable"),
    ("a key with a byte 127", "drop WORM--a\x7f\n", 1, "unsendable"),
    ("a chunk's key to check", "check WORM-s9-S4-C1--a\n", 1, "chunkkey"),
    ("a chunk's key to drop", "drop WORM-S1-C1--a\n", 1, "chunkkey"),
    ("a chunk's key to get", "get WORM-s9-S4-C1--a\n", 1, "chunkkey"),
    ("no file", "get WORM--a\n", 1, "file"),
    ("an empty file", "store WORM--a \n", 1, "file"),
    ("a file that is no UTF-8", "get WORM--a \udcff\n", 1, "file"),
    ("the first of two", "drop WORM--a\nget x\ny\n", 2, "key"),
    ("the third line", "drop WORM--a\ndrop WORM--b\ncheck x", 3, "key"),
])
def a_line_that_is_no_task_is_refused(room, text, number, reason):
    for size in (1, 5, 4096):
        expect(given(room, text, size, "--journal", "journal"), refused(number, reason), f"in pieces of {size} bytes")
    expect(room.has("journal"), False, "a journal file was made")


def case_a_line_may_have_65536_bytes(room):
    line = "drop WORM--".ljust(LINE, "x")
    expect(given(room, line + "\n", 65536), Done(1, "1 startfault\n", ""), "as long as it may be")
    expect(given(room, line + "x\n", 65536), refused(1, "long"), "one byte more")
    expect(given(room, line + "x", 65536), refused(1, "long"), "one byte more, without its end")
    expect(given(room, "drop WORM--a\n" + "y" * (LINE + 1) + "\n", 65536), refused(2, "long"), "before its word is looked at")


@limits(120)
def case_an_input_may_have_65536_lines(room):
    line = "drop WORM--a\n"
    # The last line is one that is refused for itself, so that nothing is started.
    expect(given(room, line * (LINES - 1) + "x\n", 65536), refused(LINES, "word"), "as many as there may be")
    expect(given(room, line * LINES + "y" * (LINE + 1), 65536), refused(LINES + 1, "many"), "one more, which is too long")


@limits(120)
def case_an_input_may_have_67108864_bytes(room):
    line = "drop WORM--".ljust(1023, "x") + "\n"
    began = time.monotonic()
    expect(given(room, line * 1024 + "x\n", 65536), refused(1025, "word"), "a mebibyte")
    taken = time.monotonic() - began
    if taken > 0.8:
        skip(f"a mebibyte takes {taken:.1f} s with this build")
    last = "dope WORM--".ljust(1023, "x") + "\n"
    expect(given(room, line * (LINES - 1) + last, 65536), refused(LINES, "word"), "as many as there may be")
    expect(given(room, line * LINES + "x", 65536), refused(LINES + 1, "large"), "one more")


# A key, and why it is refused; None where it isn't.
KEYS = [
    ("sha--x", "key"), ("MD5", "key"), ("MD5x--a", "key"), ("MD5-", "key"), ("MD5-x", "key"), ("MD5-s7", "key"),
    ("MD5-s7x--a", "key"), ("MD5-m1-s7--a", "key"), ("MD5-S4--a", "key"), ("MD5-S4-C1-s7--a", "key"), ("MD5-s07--x", "key"),
    ("MD5-s--x", "key"), ("MD5-s18446744073709551616--x", "key"), ("MD5-S0x", "key"), ("MD5-S4-C0--a", "key"),
    ("MD5--", "key"), ("x", "key"), ("sha--x y", "key"), ("-k", "key"), ("k", "key"),
    ("WORM--a b", "unsendable"), ("WORM-s18446744073709551615-m0--a b-c", "unsendable"), ("WORM-S1-C1--a b", "unsendable"),
    ("WORM-s9-S4-C1--a b", "unsendable"), ("WORM--a\x7f", "unsendable"), ("WORM--a\t", "unsendable"),
    ("WORM-s9-S4-C1--a", "chunkkey"), ("WORM-S1-C1--a", "chunkkey"), ("SHA256E-s0-S1048576-C12--e3b0c442.tar.gz", "chunkkey"),
    ("WORM--a", None), ("WORM-s18446744073709551615-m0--ab-c", None), ("URL--http&c%%a", None), ("WORM-s1-m2--x-y", None),
    ("SHA256E-s0--e3b0c44298fc1c149afbf4c8996fb92427ae41e4649b934ca495991b7852b855", None),
]


def case_a_key_is_read_and_can_be_sent_or_its_first_fault_is_told(room):
    for key, reason in KEYS:
        wanted = Done(1, "1 startfault\n", "") if reason is None else refused(1, reason)
        expect(room.special("check", "none", key), wanted, f"check {key!r}")
    for key, reason in (("sha--x", "key"), ("WORM--a b", "unsendable"), ("WORM-s9-S4-C1--a", "chunkkey")):
        expect(room.special("info", "none", key), refused(1, reason), f"info {key!r}")


# A remote that gives the file `content` for each key.
FETCHES = """
echo "VERSION 1"
while IFS= read -r line; do
  case "$line" in
    EXTENSIONS*) echo EXTENSIONS ;;
    PREPARE) echo PREPARE-SUCCESS ;;
    *) words=${line#TRANSFER RETRIEVE }
       cp content "${words#* }"
       echo "TRANSFER-SUCCESS RETRIEVE ${words%% *}" ;;
  esac
done
"""


def got(room, key, content):
    """What a get of the key comes to where the remote gives this content."""
    room.script("fetches.sh", FETCHES)
    room.write("content", content)
    words = ["run", "--program", "./fetches.sh", "--uuid", UUID, "--jobs", "1"]
    return room.special(*words, input=f"get {key} o\n")


# The digests of the empty content and of `abc`, as the algorithms' own papers have them.
ABC_MD5 = "900150983cd24fb0d6963f7d28e17f72"
EMPTY_SHA256 = "e3b0c44298fc1c149afbf4c8996fb92427ae41e4649b934ca495991b7852b855"


FITS = [
    (f"MD5-s3--{ABC_MD5}", "abc", "got"),
    (f"MD5--{ABC_MD5}", "abc", "got"),
    (f"MD5-s4--{ABC_MD5}", "abc", "size 3"),
    ("MD5-s3--d41d8cd98f00b204e9800998ecf8427e", "abc", f"hash {ABC_MD5}"),
    ("MD5-s3--900150983CD24FB0D6963F7D28E17F72", "abc", f"hash {ABC_MD5}"),
    (f"MD5-s3--{ABC_MD5}.c", "abc", f"hash {ABC_MD5}"),
    (f"MD5E-s3--{ABC_MD5}", "abc", "got"),
    (f"MD5E-s3--{ABC_MD5}.tar.gz", "abc", "got"),
    (f"MD5E-s3--{ABC_MD5}0", "abc", f"hash {ABC_MD5}"),
    (f"MD5E-s3--{ABC_MD5[:-1]}", "abc", f"hash {ABC_MD5}"),
    ("MD5EE-s3--x", "abc", "got"),
    ("SHA1--a9993e364706816aba3e25717850c26c9cd0d89d", "abc", "got"),
    ("SHA1-s0--x", "", "hash da39a3ee5e6b4b0d3255bfef95601890afd80709"),
    ("SHA224-s0--d14a028c2a3a2bc9476102bb288234c415a2b01f828ea62ac5b3e42f", "", "got"),
    ("SHA224E--23097d223405d8228642a477bda255b32aadbce4bda0b3f7e36c9da7.", "abc", "got"),
    (f"SHA256E-s0--{EMPTY_SHA256}", "", "got"),
    (f"SHA256E-s0--{EMPTY_SHA256}", "abc", "size 3"),
    ("SHA256--x", "abc", "hash ba7816bf8f01cfea414140de5dae2223b00361a396177a9cb410ff61f20015ad"),
    ("SHA384--x", "abc", "hash cb00753f45a35e8bb5a03d699ac65007272c32ab0eded1631a8b605a43ff5bed8086072ba1e7cc2358baeca134c825a7"),
    ("SHA512--x", "abc", "hash ddaf35a193617abacc417349ae20413112e6fa4e89a97ea20a9eeee64b55d39a"
                         "2192992a274fc1a836ba3c23a3feebbd454d4423643ce80e2a9ac94fa54ca49f"),
    ("WORM-s3-m7--name", "abc", "got"),
    ("WORM-s2-m7--name", "abc", "size 3"),
    ("URL--http&c%%example.com%", "abc", "got"),
]


@table([(f"{key} of {len(content)} bytes", key, content, answer) for key, content, answer in FITS])
def content_fits_its_key_or_it_is_told_why_not(room, key, content, answer):
    room.write("o", "old")
    expect(got(room, key, content), Done(0 if answer == "got" else 1, f"1 {answer}\n", ""))
    expect(room.text("o"), content if answer == "got" else "old", "the file")


@limits(60)
def case_content_of_20003_bytes_fits_the_digest_of_each_backend(room):
    content = bytes((7 * n + n // 13) % 256 for n in range(20_003))
    for backend, name in (("MD5", "md5"), ("SHA1", "sha1"), ("SHA224", "sha224"), ("SHA256", "sha256"),
                          ("SHA384", "sha384"), ("SHA512", "sha512")):
        digest = hashlib.new(name, content).hexdigest()
        expect(got(room, f"{backend}-s{len(content)}--{digest}", content), Done(0, "1 got\n", ""), backend)
        require(room.read("o") == content, f"{backend}: the file has the content")
        other = content[:-1] + b"\x00"
        wanted = Done(1, f"1 hash {hashlib.new(name, other).hexdigest()}\n", "")
        expect(got(room, f"{backend}E-s{len(content)}--{digest}.dat", other), wanted, f"{backend}E, another last byte")


@table([(backend, backend) for backend in ("MD5", "SHA1", "SHA256", "SHA512")])
def a_digest_is_taken_of_content_of_each_length_around_a_block(room, backend):
    room.script("fetches.sh", FETCHES.replace("cp content", 'cp "content.${words%% *}"'))
    tasks = ""
    for length in (0, 1, 55, 56, 63, 64, 65, 111, 112, 127, 128, 129, 200):
        content = bytes((7 * n + n // 13) % 256 for n in range(length))
        key = f"{backend}-s{length}--{hashlib.new(backend.lower(), content).hexdigest()}"
        room.write(f"content.{key}", content)
        tasks += f"get {key} o\n"
    words = ["run", "--program", "./fetches.sh", "--uuid", UUID, "--jobs", "1"]
    done = room.special(*words, input=tasks)
    expect(done, Done(0, "".join(f"{n} got\n" for n in range(1, tasks.count("\n") + 1)), ""))


def case_chunks_have_their_own_keys(room):
    # 16 bytes in chunks of 10: what comes before and after the fields of the chunk is the key's.
    room.write("f", "0123456789abcdef")
    room.script("remote.sh", """
echo "VERSION 1"
while IFS= read -r line; do
  echo "$line" >> heard
  case "$line" in
    EXTENSIONS*) echo EXTENSIONS ;;
    PREPARE) echo PREPARE-SUCCESS ;;
    CHECKPRESENT*) echo "CHECKPRESENT-SUCCESS ${line#* }" ;;
  esac
done
""")
    for key, first, second in (
        ("WORM-s16-m1234567890--r-1", "WORM-s16-m1234567890-S10-C1--r-1", "WORM-s16-m1234567890-S10-C2--r-1"),
        ("SHA256-s16-m7--x", "SHA256-s16-m7-S10-C1--x", "SHA256-s16-m7-S10-C2--x"),
    ):
        words = ["run", "--program", "./remote.sh", "--uuid", UUID, "--jobs", "1", "--chunk", "10"]
        expect(room.special(*words, input=f"store {key} f\n"), Done(0, "1 stored\n", ""), key)
        expect(room.text("heard").splitlines()[-2:], [f"CHECKPRESENT {first}", f"CHECKPRESENT {second}"], key)


def case_content_is_cut_where_its_chunks_end(room):
    # The size, the chunk, and how many chunks that makes.
    for size, chunk, count in ((0, 4, 1), (1, 4, 1), (3, 4, 1), (4, 4, 1), (5, 4, 2), (8, 4, 2), (9, 4, 3), (10, 1, 10)):
        content = as_text(bytes(48 + n for n in range(size)))
        room.write("f", content)
        room.mkdir(f"kept{size}.{chunk}")
        room.script("remote.sh", f"""
echo "VERSION 1"
while IFS= read -r line; do
  case "$line" in
    EXTENSIONS*) echo EXTENSIONS ;;
    PREPARE) echo PREPARE-SUCCESS ;;
    CHECKPRESENT*) echo "CHECKPRESENT-FAILURE ${{line#* }}" ;;
    *) words=${{line#TRANSFER STORE }}
       cp "${{words#* }}" "kept{size}.{chunk}/${{words%% *}}"
       echo "TRANSFER-SUCCESS STORE ${{words%% *}}" ;;
  esac
done
""")
        words = ["run", "--program", "./remote.sh", "--uuid", UUID, "--jobs", "1", "--chunk", str(chunk)]
        what = f"{size} bytes in chunks of {chunk}"
        expect(room.special(*words, input=f"store WORM-s{size}--x f\n"), Done(0, "1 stored\n", ""), what)
        for number in range(1, count + 1):
            piece = content[(number - 1) * chunk:number * chunk]
            expect(room.text(f"kept{size}.{chunk}/WORM-s{size}-S{chunk}-C{number}--x"), piece, f"{what}, chunk {number}")
        expect(room.has(f"kept{size}.{chunk}/WORM-s{size}-S{chunk}-C{count + 1}--x"), False, f"{what}: one more chunk")
