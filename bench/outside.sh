#!/usr/bin/env bash
# Runs the built program where a file can't be read or isn't a plain one, and where its output can't be written.
#
#     bench/outside.sh PROGRAM
#
# PROGRAM is the built program (./run says where it is). In turn the model, a rule file, a script, a user's file and the
# records of a load isn't there, is a folder, a link to itself, a file without the right to read, a pipe, and /dev/null.
# Then the output is full, closed, or a pipe that nobody reads. Each line is a case, and `ok` where the status and what
# was written are those that docs/GUIDE.md has. The status is 1 where one is not.
set -u
umask 022
here=$(cd "$(dirname "$0")" && pwd)
program=$(realpath "${1:?bench/outside.sh PROGRAM}") || exit 2
room=$(mktemp -d) && trap 'rm -rf "$room"' EXIT
chmod 755 "$room"
# root may read all files, so that another user runs the program then
as=()
if [ "$(id -u)" = 0 ]; then
  as=(setpriv --reuid=65534 --regid=65534 --clear-groups)
fi
install -m 755 "$program" "$room/program" || exit 2
program=$room/program
wrong=0

write_files() {
  rm -rf "$room/run" && mkdir "$room/run" && cd "$room/run" || exit 2
  cat >model.txt <<'END'
MODEL 1;
DIM 'Month'; N 'Jan'; N 'Feb'; C 'Year': 'Jan', 'Feb'; END;
DIM 'Measure'; N 'Units'; N 'Sales'; END;
CUBE 'Plan' ('Month', 'Measure'); RULES 'plan.rux'; ORDER 'Measure' ('Sales' 1); END;
SCRIPT 'import' 'import.ti';
END
  echo "['Sales'] = N: ['Units'] * 2;" >plan.rux
  echo "Data: CellPutN(StringToNumber(V2), 'Plan', V1, 'Units');" >import.ti
  echo "LOAD 'import' FROM 'x.csv'; GET 'Plan' ('Year', 'Sales');" >a.txt
  printf 'Jan,3\nFeb,4\n' >x.csv
}

answer=$'user 1\n1 @0 committed 2\n2 @1 14\nhistory\n0 user 1 command 1 cells 2'

# Compares the status and what was written with those of a case.
expect() { # TITLE STATUS TEXT
  local text
  text=$(cat "$room/text")
  if [ "$status" = "$2" ] && [ "$text" = "$3" ]; then
    echo "ok     $1"
  else
    echo "WRONG  $1: status $status, $text"
    wrong=1
  fi
}

run_program() {
  timeout 60 ${as[@]+"${as[@]}"} "$program" model.txt a.txt >"$room/text" 2>/dev/null </dev/null
  status=$?
}

write_files
run_program
expect "plain files" 0 "$answer"

for file in model.txt plan.rux import.ti a.txt x.csv; do
  write_files
  rm "$file"
  run_program
  expect "$file isn't there" 3 "cannot read $file"

  mkdir "$file"
  run_program
  expect "$file is a folder" 3 "cannot read $file"

  rmdir "$file"
  ln -s "$file" "$file"
  run_program
  expect "$file is a link to itself" 3 "cannot read $file"

  write_files
  chmod 000 "$file"
  run_program
  expect "$file may not be read" 3 "cannot read $file"

  write_files
  mv "$file" given
  mkfifo "$file" && chmod 644 "$file"
  timeout 60 cat given >"$file" &
  run_program
  wait
  expect "$file is a pipe" 0 "$answer"

  write_files
  ln -sf /dev/null "$file"
  run_program
  case $file in
    model.txt) expect "$file is /dev/null" 2 "refused model.txt: line 1: Syntax" ;;
    plan.rux) expect "$file is /dev/null" 0 "${answer/@1 14/@1 0}" ;;
    a.txt) expect "$file is /dev/null" 0 $'user 1\nhistory' ;;
    *) expect "$file is /dev/null" 0 $'user 1\n1 @0 committed 0\n2 @1 0\nhistory\n0 user 1 command 1 cells 0' ;;
  esac
done

# Of an output that takes nothing the status alone is compared.
write_files
: >"$room/text"
unwritten() { # TITLE WORD..
  local title=$1
  shift
  timeout 60 "$program" "$@" >/dev/full 2>/dev/null </dev/null
  status=$?
  expect "$title, and the output is full" 4 ""
  timeout 60 "$program" "$@" >&- 2>/dev/null </dev/null
  status=$?
  expect "$title, and the output is closed" 4 ""
  # a pipe that is closed before the program begins to write
  status=$( { { sleep 0.3; timeout 60 "$program" "$@" 2>/dev/null </dev/null; echo $? >&3; } | :; } 3>&1)
  expect "$title, and nobody reads the output" 4 ""
}
unwritten "answers" model.txt a.txt
unwritten "no words"
unwritten "a file that isn't there" none.txt a.txt
unwritten "a model that is refused" a.txt a.txt
unwritten "a check" --check model.txt
unwritten "a sample" --sample 1
# the program doesn't read standard input
timeout 60 "$program" model.txt a.txt >"$room/text" 2>/dev/null <&-
status=$?
expect "standard input is closed" 0 "$answer"
# the stored run of cube_program is that of the example
top=$(realpath "$here/..")
if diff -r "$top/examples/profit" "$top/crates/cube_program/data"; then
  echo "ok     the files of examples/profit are those of cube_program's run"
else
  wrong=1
fi
exit $wrong
