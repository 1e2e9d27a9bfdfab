# Sourced by bin/outlines and bin/outlines-stored: traces a binary PGM through the command's proved program, which is
# built first where it is missing or older than its sources. The command sets its name (command), the crate of its
# program (crate), how the samples of its pictures stand (order), a picture to try (example) and what it says of
# larger ones, if anything (larger).
# shellcheck shell=bash
set -u
: "${command:?}" "${crate:?}" "${order:?}" "${example:?}" "${larger?}"

home=$(cd "$(dirname "${BASH_SOURCE[0]}")/.." && pwd) || exit 2
program=$home/crates/$crate/out/$crate
built=$home/target/$command.built
# The bytes that the program takes, as its source has them, and the same for people.
limit=$(sed -n 's/^pub const INPUT_LIMIT: usize = \([0-9]*\);$/\1/p' "$home/crates/printing/src/lib.rt")
most=${limit%???},${limit: -3}

help() {
    cat <<END
usage: bin/$command [FILE.pgm]

Prints the outlines of the regions of a picture as SVG path data.

In    a binary PGM (P5) by name, or on standard input (no name, or -): square, its side a power of two, maxval at most
      65,535, and at most $most bytes in all, so up to 64 by 64 pixels. Remarks, from # to the end of the line, may stand
      between the numbers of its header. A region is what steps north, east, south and west over pixels of one colour reach.
      $order
Out   one line a region on standard output, in the order of the regions' numbers: the path data of its outlines, the
      outer one first, then those of its holes. \`refused\` and a number where the picture is refused; then standard error
      says in words what is wrong.

Status: 0 traced, 1 refused, 2 nothing to read or a word that is not understood, 3 the program could not be built or run,
4 the text could not be written whole.

The first run builds the program. It needs the Rattle kit (rt), takes some minutes, and says on standard error how far it is.

Try   bin/$command $example
END
}

say() { printf '%s: %s\n' "$command" "$*" >&2; }

# Ends with a message.
fail() { # STATUS MESSAGE
    say "$2"
    exit "$1"
}

# Whether the program is there and no source is newer.
current() {
    [ -x "$program" ] && [ -f "$built" ] &&
        [ -z "$(find "$home/crates.txt" "$home"/crates/*/{src,specs,proofs} -newer "$built" -print -quit 2>/dev/null)" ]
}

# Proves and builds the program, with a line on standard error for each crate.
build() {
    command -v rt >/dev/null || fail 3 'rt is not installed: the Rattle kit is needed to build the program'
    say 'building the program: every crate that it uses is proved first, which takes some minutes the first time'
    local log=$home/target/$command.log
    mkdir -p "$home/target"
    # rt run also runs it, here on nothing, and says what it does on standard error
    if (cd "$home/crates/$crate" && rt run </dev/null) 2>&1 >/dev/null | tee "$log" | sed -un "/^rt: running /d; s/^rt: /$command: /p" >&2 &&
        [ "${PIPESTATUS[0]}" -eq 0 ] && [ -x "$program" ]; then
        touch "$built"
    else
        fail 3 "the program could not be built; $log has what rt said"
    fi
}

# What a file seems to be, by its first bytes.
kind() { # FILE
    case $(head -c 8 "$1" | od -An -v -tx1 | tr -d ' \n') in
    '') echo 'it is empty' ;;
    5031* | 5032* | 5033* | 5034* | 5036* | 5037*) echo "it begins with $(head -c 2 "$1"), another kind of Netpbm picture" ;;
    5035*) echo 'it begins with P5, but what follows is no such header (a remark must end, and none may stand straight after maxval)' ;;
    89504e47*) echo 'it is a PNG' ;;
    ffd8ff*) echo 'it is a JPEG' ;;
    47494638*) echo 'it is a GIF' ;;
    424d*) echo 'it is a BMP' ;;
    49492a00* | 4d4d002a*) echo 'it is a TIFF' ;;
    *) echo 'it does not begin with P5' ;;
    esac
}

# What a refusal means for this file, in words.
words() { # NUMBER FILE
    local width height maxval size
    # from 11 on the header is good: P5 and three numbers, once the remarks are gone
    read -r _ width height maxval _ < <(tr '\r' '\n' <"$2" | LC_ALL=C sed 's/#.*//' | tr '\t\n' '  ' | tr -cd 'P0-9 ')
    case $1 in
    10) echo "the header is not that of a binary PGM (P5, width, height, maxval, one white space byte): $(kind "$2")" ;;
    11) echo "the picture is $width by $height: width and height must be equal and a power of two from 1 to 256" ;;
    12) echo "maxval is $maxval: it must be from 1 to 65,535" ;;
    13)
        [ "$((10#$maxval))" -le 255 ] && size='one byte' || size='two bytes'
        echo "the raster is not exactly $width times $height samples of $size: it breaks off, or something follows it"
        ;;
    14) echo "a sample is above maxval, which is $maxval" ;;
    15) echo "the input has more than $most bytes: pictures of up to 64 by 64 pixels fit${larger:+; $larger}" ;;
    *) echo "the number is $1" ;;
    esac
}

case ${1-} in
-h | --help)
    help
    exit 0
    ;;
-?*)
    help >&2
    fail 2 "there is no option $1"
    ;;
esac
if [ $# -gt 1 ]; then
    help >&2
    fail 2 'one picture at a time'
fi
name=${1--}
if [ "$name" = - ]; then
    name='standard input'
    if [ -t 0 ]; then
        help >&2
        fail 2 'no file is named and standard input is a terminal'
    fi
else
    [ -e "$name" ] || fail 2 "there is no file $name"
    [ ! -d "$name" ] || fail 2 "$name is a folder, not a picture"
    [ -r "$name" ] || fail 2 "$name can't be read"
    exec <"$name"
fi

current || build

# One byte more than the program takes, so that it sees what is too long.
room=$(mktemp -d) || exit 2
trap 'rm -rf "$room"' EXIT
picture=$room/picture
head -c $((limit + 1)) >"$picture" || fail 2 "$name can't be read"

# The program can't end with a status: it says on standard error that its text could not be written whole.
text=$("$program" <"$picture" 2>"$room/said") || fail 3 "the program ended with status $?"
if [ -s "$room/said" ]; then
    cat "$room/said" >&2
    exit 4
fi
printf '%s\n' "$text" 2>/dev/null || fail 4 'the text could not be written whole'
case $text in
'refused '*)
    say "$name is refused: $(words "${text#refused }" "$picture")"
    exit 1
    ;;
esac
