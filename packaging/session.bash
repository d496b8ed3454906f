# What ./chemdb and the installed script both do: they read the words, run the program so that it ends when they do, and
# say what its status means. The script that reads this file says which `program` it is, and where the `docs` are.
#
# TERM, INT and HUP of the script end the program too, and the script ends when the program does. A KILL cannot be
# caught: it ends the program where setpriv (util-linux) is there, and else leaves it running.

# The words, as the program reads them: the command, the file of init, run and serve, and the scripts of serve.
command='' file='' scripts=()
# What goes when this script ends, the program that runs, and the signal that came.
room='' child='' caught=''

# What is asked for in place of a run: help or version.
asked=''

say() { echo "chemdb: $*" >&2 || true; }

# The lines of a script, for the end of a help text.
line_usage() {
  cat <<LINES

lines of a script, and their replies
  register ID SMILES, revise ID SMILES, withdraw ID     ok V: the store has V commits now
  register-new ID SMILES                                ok V, or refused same N: N has the structure
  register-mol ID, revise-mol ID, then a molfile        ok V
  register-sd ID COUNT, then COUNT records of an SD file   a line for each record
  show ID                                               record ID version V smiles TEXT, or its molfile
  data ID NAME                                          data ID N, and N lines of this data item
  search SMARTS                                         hit ID for each hit, then end at V tried T hits N
  same SMILES                                           hit ID for each record of this structure, then end
  similar P Q K SMILES                                  like ID C U for the K most similar from P/Q on, then end
  open NAME SMARTS, next NAME, close NAME               a cursor: opened V; a page of hits, then more or end; closed
  watch NAME SMARTS, hits NAME, unwatch NAME            a watch: watching V hits N; its hits, then end; unwatched
  prune, compact, stats                                 pruned N; compacting L or compacted G; the store's counts

--help prints this, and --version the version, the commit and the kit.
$docs/guide.md shows how it goes.
LINES
}

# Reads the words. What it does not know the program refuses.
read_words() {
  local are_options=1
  case ${1-} in help | version) asked=$1 ;; esac
  while [ $# -gt 0 ]; do
    case $are_options$1 in
      1--) are_options= ;;
      1-h | 1--help) asked=help ;;
      1-V | 1--version) [ -n "$asked" ] || asked=version ;;
      1--workers | 1--page | 1--commits) [ $# -eq 1 ] || shift ;;
      1-?*) ;;
      *)
        if [ -z "$command" ]; then
          command=$1
        elif [ -z "$file" ]; then
          file=$1
        else
          scripts+=("$1")
        fi
        ;;
    esac
    shift
  done
}

# Ends this script by the signal that came, so that whoever started it sees which.
die() {
  clear_room
  trap - EXIT "$caught"
  kill -s "$caught" $$
  exit 1
}

clear_room() { [ -z "$room" ] || rm -rf "$room"; }

# From here on signals are handed on, and the room goes at the end.
stand_by() {
  trap 'take TERM' TERM
  trap 'take INT' INT
  trap 'take HUP' HUP
  trap clear_room EXIT
}

# Called when a signal comes: the command that runs gets it too.
take() {
  caught=$1
  [ -z "$child" ] || kill -s "$1" "$child" 2>/dev/null || true
}

# Runs a command in a folder with this standard input, and returns its status. A signal meanwhile ends the command, and
# then this script.
attend() {
  local folder=$1 status=0
  shift
  [ -z "$caught" ] || die
  if [ -n "$has_input" ]; then
    (trap - INT QUIT && cd "$folder" && exec "$@") <&0 &
  else
    (trap - INT QUIT && cd "$folder" && exec "$@") <&- &
  fi
  child=$!
  [ -z "$caught" ] || kill -s "$caught" "$child" 2>/dev/null || true
  while :; do
    status=0
    wait "$child" || status=$?
    kill -0 "$child" 2>/dev/null || break
  done
  child=''
  [ -z "$caught" ] || die
  return "$status"
}

# A search reads a few lines of memory of each structure. In pages of 2 MiB, which the C library asks for so, they are
# found sooner. What the caller sets counts for more.
run_program() {
  local watched=()
  ! setpriv --pdeathsig KILL true >/dev/null 2>&1 || watched=(setpriv --pdeathsig KILL)
  GLIBC_TUNABLES=glibc.malloc.hugetlb=1${GLIBC_TUNABLES:+:$GLIBC_TUNABLES} \
    attend . ${watched[@]+"${watched[@]}"} "$program" "$@"
}

# The number of a process that has a file locked, where the system tells it.
holder_of() {
  local inode
  inode=$(stat -L -c %i -- "$1" 2>/dev/null) || return 0
  awk -v end=":$inode" '$2 == "FLOCK" && substr($6, length($6) - length(end) + 1) == end { print $5; exit }' \
    /proc/locks 2>/dev/null || true
}

# The first file of the store that is named: what a link leads to.
first_file() { if [ -L "$file" ] && [ -e "$file" ]; then readlink -f -- "$file"; else echo "$file"; fi; }

# Whether a file begins as a store of any format does.
begins_as_store() { [ "$(head -c 7 -- "$1" 2>/dev/null | tr -d '\0')" = ZCHEMDB ]; }

# Whether two names are of one file.
are_one() { [ "$1" -ef "$2" ]; }

# fault_of FILE [yes]: why one of a store's two files cannot be opened, with `yes` if it is made where nothing is there.
# It prints nothing if it sees no reason.
fault_of() {
  local it=$1 is_made=${2-} folder holder
  folder=$(dirname -- "$it")
  if [ -L "$it" ] && [ ! -e "$it" ]; then
    echo "$it is a link that leads nowhere"
  elif [ ! -e "$it" ]; then
    if [ ! -d "$folder" ]; then
      echo "there is no folder $folder"
    elif [ -z "$is_made" ]; then
      echo "$it is not there"
    elif [ ! -w "$folder" ] || [ ! -x "$folder" ]; then
      echo "$it is not there, and $(id -un) may not make it: $folder may not be written"
    elif [ ! -r "$folder" ]; then
      echo "$it is not there, and $(id -un) may not make it: $folder may not be read, and has to be synced"
    fi
  elif [ -d "$it" ]; then
    echo "$it is a folder"
  elif [ ! -f "$it" ]; then
    echo "$it is no regular file"
  elif [ ! -r "$it" ] || [ ! -w "$it" ]; then
    echo "$it may not be read and written by $(id -un)"
  elif [ "$(stat -L -c %h -- "$it")" != 1 ]; then
    echo "$it has a second name (a hard link), by which it would have another second file; remove one of the names"
  elif [ -n "$is_made" ] && [ ! -s "$it" ] && [ ! -r "$folder" ]; then
    echo "$folder may not be read by $(id -un), and has to be synced as long as $it has no bytes"
  else
    holder=$(holder_of "$it")
    [ -z "$holder" ] || echo "process $holder has $it open as a store"
  fi
}

# Why the store could not be opened, read or written, as far as it can be seen from here.
why_no_disk() {
  local first why
  first=$(first_file)
  case $first in
    *.2)
      if [ -e "${first%.2}" ]; then
        echo "$first is the second file of ${first%.2}: name that one"
        return
      fi
      ;;
  esac
  why=$(fault_of "$first" "$([ "$command" != init ] || echo yes)")
  [ -n "$why" ] || why=$(fault_of "$first.2" yes)
  [ -n "$why" ] || why="$file or $file.2 could not be read or written: is the disk full (df), or did it fail (dmesg)?"
  echo "$why"
}

# Why neither file is read as a store.
why_no_store() {
  local first it
  first=$(first_file)
  for it in "$first" "$first.2"; do
    if begins_as_store "$it"; then
      echo "$it begins as a store does, of another format or cut in its first bytes; it was left as it is"
      return
    fi
  done
  echo -n "neither $first nor $first.2 is a store that this program reads; is it the right name? Nothing was changed"
  if [ -f "$first" ] && [ ! -s "$first" ] && [ ! -e "$first.2" ]; then
    echo -n ". $first has no bytes: the records of a store that was compacted are in $first.2, which is not there"
  fi
  echo
}

# Which of the two files has bytes.
why_not_empty() {
  local it
  for it in "$file" "$file.2"; do
    if [ -s "$it" ]; then
      echo "$it has bytes already, and was left as it is; use it with: chemdb run $file; or name another file"
      return
    fi
  done
  echo "the file has bytes already, and was left as it is; name another, or use it with: chemdb run $file"
}

# Which script could not be read.
why_no_input() {
  local it why=''
  [ "$command" = serve ] || { echo "the input could not be read" && return; }
  for it in ${scripts[@]+"${scripts[@]}"}; do
    if [ ! -e "$it" ]; then
      why="is not there"
    elif [ -d "$it" ]; then
      why="is a folder"
    elif [ ! -r "$it" ]; then
      why="may not be read by $(id -un)"
    elif are_one "$it" "$file" || are_one "$it" "$file.2"; then
      why="is the store"
    elif [ -n "$(holder_of "$it")" ]; then
      why="is written by process $(holder_of "$it")"
    fi
    [ -z "$why" ] || { echo "the script $it could not be read: it $why" && return; }
  done
  echo "a script could not be read on"
}

# Which script's replies could not be written.
why_no_output() {
  local it out other why='' seen=()
  [ "$command" = serve ] || { echo "the output could not be written" && return; }
  for it in ${scripts[@]+"${scripts[@]}"}; do
    out=$it.out
    for other in ${seen[@]+"${seen[@]}"}; do
      ! are_one "$other" "$out" || why="it is also that of another script"
    done
    seen+=("$out")
    for other in "${scripts[@]}"; do
      ! are_one "$other" "$out" || why="it is a script"
    done
    if [ -d "$out" ]; then
      why="it is a folder"
    elif [ ! -e "$out" ]; then
      why="it could not be made in $(dirname -- "$out")"
    elif [ ! -w "$out" ]; then
      why="it may not be written by $(id -un)"
    elif are_one "$out" "$file" || are_one "$out" "$file.2"; then
      why="it is the store"
    elif begins_as_store "$out"; then
      why="it is a store"
    elif [ -n "$(holder_of "$out")" ]; then
      why="process $(holder_of "$out") has it open"
    fi
    [ -z "$why" ] || { echo "the replies to $it could not be written to $out: $why" && return; }
  done
  echo "the replies to a script could not be written; is the disk full, or did their reader go away?"
}

# What a status means. One of 128 and more is that of a program that a signal ended.
explain() {
  case $1 in
    0 | 1 | 2) ;;
    3) say "$(why_no_input)" ;;
    4) say "$(why_no_output)" ;;
    5) say "$(why_no_disk)" ;;
    6) say "$(why_no_store)" ;;
    7) say "it was left as it is; what stands before that byte is whole and can be saved: $docs/atomic-commit.md" ;;
    8) say "memory ran out" ;;
    9) say "the input has 4,294,967,296 bytes or more" ;;
    10) say "$(why_not_empty)" ;;
    11) say "the store has given all its turns; start it again" ;;
    *)
      if [ "$1" -gt 128 ]; then
        say "the program was ended by the signal $(kill -l "$(($1 - 128))")"
      else
        say "the program ended with status $1"
      fi
      ;;
  esac
}

# Whether standard input is open, and whether output and error are too. Bash leaves the script open in the place of an
# error stream that is closed.
has_input='' are_open=''
if { : 9<&0; } 2>/dev/null; then has_input=yes; fi
if [ -n "$has_input" ] && { : 9>&1; } 2>/dev/null && : 9>&2 && [ ! "/proc/$$/fd/2" -ef "${BASH_SOURCE[-1]}" ]; then
  are_open=yes
fi

# Refuses a store where one of them is closed: the store's file would take the place of the stream.
refuse_closed_streams() {
  case $command in
    init | run | serve)
      if [ -z "$are_open" ]; then
        say "standard input, output and error have to be open"
        exit 5
      fi
      ;;
  esac
}
