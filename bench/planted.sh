#!/usr/bin/env bash
# bench/planted.sh [NAME ..]: plants wrong definitions, those that are named or all of bench/planted, each in a copy of the repository in which the crates of code are left out, and says by which crate
# it is refused: by the law that is to see it, or by an older one below. A file NAME.edit has a line `law: CRATE`, a line `file: PATH`, and pairs of lines `old: TEXT` and `new: TEXT`, each `old` in the
# file exactly once.
#
# CHECK is the command that proves a crate and those below it, in the folder of the copy: `rt ci` where it is not named. WORK is where the copies are made.
# Seen: of `acknowledgement_is_not_repeated` the seventeen laws of mqb_exactly_once stand, and `can_recover` is refused: in mqb_law_recovery/proofs/Bringing `acknowledging` is left, that what was decided last may be
# acknowledged once more. `a_sequence_waits_for_the_later_one` is refused by older laws, in mqb_exactly_once: `begun_in_order` of proofs/Beginning and `none_is_skipped` of proofs/Always are left.
# The other three were tried crate by crate. What refused one was left out, or mended where it
# still held, so that the laws above were tried too; where laws of mqb_history were left out,
# `recovers` and `delivers` had those that they cite as premises.
# `cursor_never_goes_back`: before recovery two worked runs refuse it, `one_is_kept` of mqb_network
# and `every_event_is_answered` of mqb_history, and no other law of the two. `recovers` is refused
# too: in mqb_law_meetings/proofs/Meets `parted m ≡ unlinked (parted_state m.state)` is left. It
# does not hold: worked out, of three messages the last is offered and stays unacknowledged.
# Mended: a line of `unlinked_is_valid`, and `parted_alone` and `parted_is` of the meetings.
# `restart_forgets_a_row`: older laws refuse it. In mqb_model the proofs of 16, and the worked run
# `one_is_in_doubt`: of `durable_is_applied` `join_same` of proofs/Recording is left, that a row
# begins in what a store stands for. In mqb_network `one_is_lost`. In mqb_history the proofs of 41,
# among them `always_waits_until_decided`, on which `delivers` rests: `[] ≡ s.outs` of
# proofs/Written is left. From their premises `recovers` and `delivers` stand: nothing waits where
# no row is left. `some_are_brought_over` is refused: the work is to be 3 and is 0.
# `window_never_opens`: the laws of mqb_session, mqb_model, mqb_network and mqb_history stand, with
# seven lines of proofs mended, and the code of mqb_session that hears a header left out.
# `each_is_in_order` of mqb_law_progress refuses it, and no other law there: `acked` is `b.acked`
# and is to be `b.sent`. Where it is stated with `b.acked`, the proof of `recovers` is refused for
# the same goal (`heard_is` and `ack_header`), though three messages are brought over, worked out.
#
# It stands outside the gate: what stands above a definition is proved anew, which takes minutes for streams and an hour and more for sessions.
set -u
top=$(cd "$(dirname "$0")/.." && pwd)
work=${WORK:-$(mktemp -d)}
status=0
for edit in $(if [ $# -gt 0 ]; then printf "$top/bench/planted/%s.edit\n" "$@"; else ls "$top"/bench/planted/*.edit; fi); do
  name=$(basename "$edit" .edit)
  copy=$work/$name
  rm -rf "$copy" && mkdir -p "$copy" && git -C "$top" archive HEAD | tar -x -C "$copy" || exit 1
  law=$(python3 - "$edit" "$copy" <<'PLANT'
import pathlib, shutil, sys
edit, copy = map(pathlib.Path, sys.argv[1:])
words = [line.partition(": ")[::2] for line in edit.read_text().splitlines()]
law, path = (next(text for word, text in words if word == wanted) for wanted in ("law", "file"))
text = (copy / path).read_text()
pairs = [text for word, text in words if word in ("old", "new")]
for old, new in zip(pairs[::2], pairs[1::2]):
    assert text.count(old) == 1, (edit, old)
    text = text.replace(old, new)
(copy / path).write_text(text)
lines = [line for line in (copy / "crates.txt").read_text().splitlines() if not line.startswith("#")]
below = {law}  # the law's crate, and those below it: the lowest is first
for line in reversed(lines):
    name, rest = line.split(":")
    if name in below:
        below |= set(rest.split())
(copy / "crates.txt").write_text("".join(f"{line}\n" for line in lines if line.split(":")[0] in below))
for crate in (copy / "crates").iterdir():
    if crate.name not in below:
        shutil.rmtree(crate)
print(law)
PLANT
  ) || exit 1
  if (cd "$copy" && ${CHECK:-rt ci} "$law") >"$copy/said.txt" 2>&1; then
    echo "$name: NOT REFUSED by $law"
    status=1
  else
    echo "$name: refused, to be seen by $law"
    grep -E 'error: |not proved' "$copy/said.txt" | head -3 | cut -c1-300
  fi
done
exit $status
