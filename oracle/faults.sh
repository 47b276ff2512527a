#!/usr/bin/env bash
# Shows that the comparison notices: each one-line fault is planted in a copy of the original Rust, and the
# comparison with that copy must end with a difference.
#
#   oracle/faults.sh [--standin]
set -euo pipefail
cd "$(dirname "$0")/.."
root=$PWD
source=$(cd "${REVC_SRC:-$root/../shared/docs/src}" && pwd)
work=$root/target/faults
failed=0

# fault NAME FILE OLD NEW: one line of the copy is changed; OLD stands in exactly one place there.
fault() {
  local name=$1 file=$2 old=$3 new=$4 copy=$work/$1
  shift 4
  rm -rf "$copy"
  mkdir -p "$copy"
  cp -r "$source/src" "$copy/src"
  python3 - "$copy/src/$file" "$old" "$new" <<'PY'
import sys
path, old, new = sys.argv[1:]
text = open(path).read()
assert text.count(old) == 1, "%r stands in %d places" % (old, text.count(old))
open(path, "w").write(text.replace(old, new))
PY
  # Its own folder, so that the next comparison is not built from this copy.
  if REVC_SRC=$copy CARGO_TARGET_DIR=$work/build "$root/oracle/run" quick "$@" >"$copy/log" 2>&1; then
    echo "NOT NOTICED: $name"
    failed=1
  elif grep -q -m1 '^DIFFERENCE' "$copy/log"; then
    echo "noticed: $name: $(grep -A1 -m1 '^DIFFERENCE' "$copy/log" | tail -n 1)"
  else
    echo "the comparison did not run: $name; see $copy/log"
    failed=1
  fi
}

fault gap-drops-slot-0 picman.rs '(i > 0 && ref_pic_gap_length > 0' '(ref_pic_gap_length > 0' "$@"
fault notes-slide picman.rs 'for i in 0..tbm.len() {' 'for i in (0..tbm.len()).rev() {' "$@"
fault due-only-below picman.rs 'if ps.poc <= self.poc_next_output {' 'if ps.poc < self.poc_next_output {' "$@"
fault equal-numbers-reversed picman.rs 'self.pic_ref[0..cnt].sort_by_key(' 'self.pic_ref[0..cnt].reverse(); self.pic_ref[0..cnt].sort_by_key(' "$@"
fault slot-26-passed-over picman.rs 'let mut i = (MAX_PB_SIZE - 1) as isize;' 'let mut i = (MAX_PB_SIZE - 2) as isize;' "$@"
fault wrap-moves-previous util.rs '            expected_tid = 0;' '            expected_tid = 0; poc.prev_poc_val += sub_gop_length as u32;' "$@"
fault one-depth enc/tbl.rs '[ FRM_DEPTH_2, FRM_DEPTH_3, FRM_DEPTH_3, 0xFF,' '[ FRM_DEPTH_2, FRM_DEPTH_3, FRM_DEPTH_2, 0xFF,' "$@"
fault last-depth-is-reference enc/mod.rs 'if self.slice_depth == tbl_slice_depth[gop_size >> 2][gop_size - 2] {' 'if self.slice_depth == tbl_slice_depth[gop_size >> 2][0] {' "$@"
fault number-without-place enc/mod.rs '(((pic_imcnt / gop_size) * gop_size) - gop_size + pos + 1) as i32;' '(((pic_imcnt / gop_size) * gop_size) - gop_size + pos) as i32;' "$@"
exit $failed
