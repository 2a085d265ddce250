# shellcheck shell=bash
# shellcheck disable=SC2154 # the test sets `maker` and `program`
# Cases that the reference makes and a program answers, for a test that has sourced test.sh. The test sets `maker`,
# the program of the reference that makes them, and `program`, the command that answers them.

# Is what the program answers to the cases of a kind, in as many lines as given, what the reference answers? All lines
# are compared and not a digest of them, so that a failure shows the first calls that are answered otherwise.
answers() { # FOLDER KIND LINES [F3 F1 F0]
    local folder=$1 kind=$2 lines=$3 made
    shift 3
    reference "$maker" "$kind" "$folder" "$@" && made=$(wc -l <"$folder/stdout") || return 1
    [ "$made" -eq "$lines" ] || { echo "$made lines and not $lines" && return 1; }
    "${program[@]}" <"$folder/stdin" >"$folder/wrote" || return 1
    cmp "$folder/wrote" "$folder/stdout" && return
    diff "$folder/wrote" "$folder/stdout" | head -n 12
    return 1
}

# The lists of commits, undos and releases that `history_vectors` makes, each with refused calls in it, and how many
# lines it has, one for each call but a start. They are run by value (tests/history_trial), in place
# (tests/register_calls) and by bytes (tests/seal_calls), and walked back (tests/row_walk). A list is taken back as far
# as its last accepted release, behind which an undo is refused with 121; about every second list has none.
#
# The last has lists of 1 to 64 commits, each once more with operation k alone changed from D to E (document 02,
# request 7), with refused calls at other places. What is expected of a changed list is what the first one came to,
# moved from operation k on: after j operations by 2^(j-k) times E - D, which is made of sums by decimal digits and
# neither by commits nor by doubling.
# shellcheck disable=SC2034
declare -A list_lines=(
    [bench]=13336 [known-halves]=1558 [wide]=6229 [full]=7297 [every-class]=64835 [displacement]=29258
)
# shellcheck disable=SC2034
declare -A list_name=(
    [bench]="lists of commits, undos and releases on six curves of the bench field, taken back"
    [known-halves]="the same over GF(2^61) on the curves with coefficients 0 and 1"
    [wide]="the same over GF(2^61) on forty curves"
    [full]="1,024 commits over each field, and the way back, without releases and with them"
    [every-class]="an undo with every class of x^7, each taken back"
    [displacement]="one operation changed in lists of 1 to 64 commits over both fields"
)
