"""`special` over small real programs."""

from harness import UUID, expect, limits, table
from runs import checks, status_of

# It has the keys that are files of its folder.
PRESENT = """
echo "VERSION 1"
while IFS= read -r line; do
  case "${line%% *}" in
    EXTENSIONS) echo EXTENSIONS ;;
    PREPARE) echo PREPARE-SUCCESS ;;
    CHECKPRESENT)
      key=${line#CHECKPRESENT }
      if [ -f "$key" ]; then echo "CHECKPRESENT-SUCCESS $key"; else echo "CHECKPRESENT-FAILURE $key"; fi ;;
    *) echo UNSUPPORTED-REQUEST ;;
  esac
done
"""


def case_echo_is_no_remote(room):
    expect(room.special("check", "echo", "WORM--a"), (1, "1 ended version\n", ""))


def case_a_child_is_asked_for_a_key_that_is_there_and_for_one_that_is_not(room):
    room.write("WORM--there", "content")
    room.script("remote.sh", PRESENT)
    expect(room.special("check", "./remote.sh", "WORM--there"), (0, "1 present\n", ""), "a key that is there")
    expect(room.special("check", "./remote.sh", "WORM--not-there"), (1, "1 absent\n", ""), "a key that is not")


@table([
    # It says half a line and ends, but not before the first request was written.
    ("half a line", "echo 'VERSION 1'\nprintf EXTEN\nread -r line\n", "1 ended eof\n"),
    ("no input", "exec 0<&-\necho 'VERSION 1'\n", "1 unsent\n"),
    ("a long line", "head -c 65537 /dev/zero | tr '\\0' a\n", "1 ended longline\n"),
])
def a_child_that_breaks_off_is_told(room, script, out):
    room.script("half.sh", script)
    expect(room.special("check", "./half.sh", "WORM--a"), (1, out, ""))


# It wants a setting, and sets registers of each kind.
SETTING = """
ask() { echo "$1"; IFS= read -r answer; }
echo "VERSION 1"
while IFS= read -r line; do
  case "${line%% *}" in
    EXTENSIONS) echo EXTENSIONS ;;
    INITREMOTE)
      ask 'GETCONFIG directory'; dir=${answer#VALUE }
      echo 'SETCREDS login me secret'
      echo 'SETSTATE WORM--a here'
      echo 'SETWANTED standard'
      echo 'SETCONFIG made by me'
      echo 'SETURLPRESENT WORM--a u'
      echo 'SETURLMISSING WORM--a u'
      if [ -n "$dir" ]; then echo INITREMOTE-SUCCESS; else echo 'INITREMOTE-FAILURE directory is not set'; fi ;;
    *) echo UNSUPPORTED-REQUEST ;;
  esac
done
"""
KEPT = "annex-keep 1\nconfig directory /x y\nconfig made by me\nwanted standard\nstate WORM--a here\n"


def case_a_remote_is_set_up_and_what_it_sets_is_kept(room):
    room.script("setup.sh", SETTING)
    words = ["init", "./setup.sh", UUID, "kept/in/a/folder"]
    expect(room.special(*words, "directory=/x y"), (0, "initialized\n", ""), "an init")
    expect(room.text("kept/in/a/folder"), KEPT, "the kept file")
    expect(room.special(*words, "directory="), (1, "failed directory is not set\n", ""), "an init that fails")
    expect(room.text("kept/in/a/folder"), KEPT, "the kept file after the init that fails")


def case_a_folder_is_no_kept_file(room):
    room.mkdir("folder")
    expect(room.special("init", "echo", UUID, "folder", "a=b"), (6, "", "special: file failed\n"))


# It keeps contents in the folder `there`.
KEEPER = """
echo "VERSION 1"
while IFS= read -r line; do
  case "${line%% *}" in
    EXTENSIONS) echo EXTENSIONS ;;
    PREPARE) echo PREPARE-SUCCESS ;;
    CHECKPRESENT)
      key=${line#CHECKPRESENT }
      if [ -f "there/$key" ]; then echo "CHECKPRESENT-SUCCESS $key"; else echo "CHECKPRESENT-FAILURE $key"; fi ;;
    TRANSFER)
      rest=${line#TRANSFER }
      way=${rest%% *}
      rest=${rest#* }
      key=${rest%% *}
      file=${rest#* }
      if [ "$way" = STORE ]; then from=$file to=there/$key; else from=there/$key to=$file; fi
      if cp -- "$from" "$to"; then echo "TRANSFER-SUCCESS $way $key"; else echo "TRANSFER-FAILURE $way $key no"; fi ;;
    REMOVE) key=${line#REMOVE }; rm -f -- "there/$key"; echo "REMOVE-SUCCESS $key" ;;
    *) echo UNSUPPORTED-REQUEST ;;
  esac
done
"""


def run(room, program, tasks, *words):
    return room.special("run", "--program", program, "--uuid", UUID, "--work", "work", *words, input=tasks)


@limits(60)
def case_200_keys_are_stored_checked_got_and_dropped_over_a_pool_of_four(room):
    keys = range(1, 201)
    contents = {n: str(n % 10) * n for n in keys}
    room.script("keeper.sh", KEEPER)
    room.mkdir("there")
    room.mkdir("work")
    for n in keys:
        room.write(f"files/s {n}", contents[n])
    for task, answer in [
        ("store WORM--k{n} files/s {n}", "stored"),
        ("check WORM--k{n}", "present"),
        ("get WORM--k{n} files/g {n}", "got"),
        ("drop WORM--k{n}", "dropped"),
        ("check WORM--k{n}", "absent"),
    ]:
        tasks = "".join(task.format(n=n) + "\n" for n in keys)
        out = "".join(f"{n} {answer}\n" for n in keys)
        done = run(room, "./keeper.sh", tasks, "--jobs", "4", "--starts", "1")
        expect(done, (status_of(out), out, ""), task)
    for n in keys:
        expect(room.text(f"files/g {n}"), contents[n], f"what was got of key {n}")
    expect(list((room.folder / "work").iterdir()), [], "what is left where files are fetched")


# It answers two checks, and dies in the next task.
DYING = """
n=0
echo "VERSION 1"
while IFS= read -r line; do
  case "${line%% *}" in
    EXTENSIONS) echo EXTENSIONS ;;
    PREPARE) echo PREPARE-SUCCESS ;;
    *) n=$((n + 1)); if [ $n = 3 ]; then exit 1; fi; echo "CHECKPRESENT-SUCCESS ${line#CHECKPRESENT }" ;;
  esac
done
"""
FIVE = checks(*"abcde")


@table([
    ("two starts", "2", "1 present\n2 present\n3 ended eof\n4 present\n5 present\n"),
    ("one start", "1", "1 present\n2 present\n3 ended eof\n4 nochild\n5 nochild\n"),
])
def a_second_start_goes_on_where_a_child_died(room, starts, out):
    room.script("dying.sh", DYING)
    expect(run(room, "./dying.sh", FIVE, "--jobs", "1", "--starts", starts), (1, out, ""))


# It writes down that it was started, and has each key.
COUNTED = """
echo started >>starts
echo "VERSION 1"
while IFS= read -r line; do
  case "${line%% *}" in
    EXTENSIONS) echo EXTENSIONS ;;
    PREPARE) echo PREPARE-SUCCESS ;;
    *) echo "CHECKPRESENT-SUCCESS ${line#CHECKPRESENT }" ;;
  esac
done
"""


@table([("two jobs", "2", 2), ("more jobs than tasks", "64", 5)])
def each_job_has_a_child_of_its_own_as_far_as_there_are_tasks(room, jobs, children):
    room.script("counted.sh", COUNTED)
    out = "".join(f"{task} present\n" for task in range(1, 6))
    expect(run(room, "./counted.sh", FIVE, "--jobs", jobs, "--starts", "1"), (0, out, ""))
    expect(room.text("starts"), "started\n" * children, "what the children wrote")


# It says that it has sent a content: of one key it sent other bytes, of one too few, and of all others none.
LYING = """
echo "VERSION 1"
while IFS= read -r line; do
  case "${line%% *}" in
    EXTENSIONS) echo EXTENSIONS ;;
    PREPARE) echo PREPARE-SUCCESS ;;
    *)
      rest=${line#TRANSFER RETRIEVE }
      key=${rest%% *}
      file=${rest#* }
      case "$key" in
        *--short) printf xy >"$file" ;;
        *--900150983cd24fb0d6963f7d28e17f72) printf foo >"$file" ;;
      esac
      echo "TRANSFER-SUCCESS RETRIEVE $key" ;;
  esac
done
"""


def case_a_remote_that_says_success_is_not_believed_without_the_content(room):
    room.script("lying.sh", LYING)
    room.mkdir("work")
    tasks = "get WORM-s3--nothing o1\nget MD5-s3--900150983cd24fb0d6963f7d28e17f72 o2\nget WORM-s3--short o3\n"
    out = "1 nofile\n2 hash acbd18db4cc2f85cedef654fccc4a4d8\n3 size 2\n"
    expect(run(room, "./lying.sh", tasks, "--jobs", "4", "--starts", "1"), (1, out, ""))
    expect([name for name in ("o1", "o2", "o3") if room.has(name)], [], "the files")
