# For ./book, and for bin/book of the release, which begins with this text: reads the words of the command line. What is wrong with them, or with the
# file, is told in one line, with exit status 2. The file becomes standard input. Sourced, by any shell, with the options that there are in $options;
# those that were given are in $given.

usage="usage: book$(printf ' [%s]' $options) [FILE]"
given=
fail() { echo "book: $1" >&2; exit 2; }
while [ $# -gt 0 ]; do
  case $1 in
  -h | --help)
    printf '%s\n' "$usage" 'prints the depth that the messages of FILE (or standard input) leave, one message a line with | for SOH' \
      'with --equities they are to an equities market, and not to a bond market'
    case $options in *--unproved*) echo 'with --unproved it answers in seconds, by a program that is compiled and not proved' ;; esac
    exit
    ;;
  -?*) case " $options " in *" $1 "*) given="$given $1" ;; *) fail "no such option: $1; $usage" ;; esac ;;
  *) break ;;
  esac
  shift
done
[ $# -le 1 ] || fail "more than one file: $2; $usage"
if [ $# -eq 1 ] && [ "$1" != - ]; then
  [ -e "$1" ] || fail "cannot read $1: there is no such file"
  [ ! -d "$1" ] || fail "cannot read $1: it is a folder"
  [ -r "$1" ] || fail "cannot read $1: permission denied"
  exec <"$1"
fi
case $given in *--equities*) kind=--equities ;; *) kind= ;; esac
