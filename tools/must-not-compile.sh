#!/bin/sh
# Tries what the types of the sheets rule out: each attempt below must be refused by the compiler,
# and the one that keeps the order must be accepted. Run it from anywhere: tools/must-not-compile.sh
set -eu
root=$(cd "$(dirname "$0")/.." && pwd)
work=$(mktemp -d)
trap 'rm -rf "$work"' EXIT
mkdir -p "$work/crates/attempt/src"
cp -r "$root/crates/amounts" "$root/crates/questions" "$root/crates/sheets" "$work/crates/"
rm -rf "$work"/crates/*/must-fail "$work"/crates/*/out
printf 'amounts:\nquestions:\nsheets: amounts questions\nattempt: sheets\n' > "$work/crates.txt"

failed=0
# attempt NAME refused|accepted BODY
attempt() {
    cat > "$work/crates/attempt/src/lib.rt" <<RT
use sheets::{AttachmentCc, CcLine, Columns, OpenSheet, Project, Refusal, WorkedSheet};

$3

#[test]
fn compiles() {}
RT
    if (cd "$work/crates/attempt" && rt try --test > "$work/log" 2>&1); then answer=accepted; else answer=refused; fi
    error=$(grep -m 1 -o 'error\[[a-zA-Z0-9-]*\]: [^:]*' "$work/log" || true)
    if [ "$answer" = "$2" ]; then
        echo "ok: $1 is $answer${error:+, $error}"
    else
        echo "FAILED: $1 is $answer, not $2"
        cat "$work/log"
        failed=1
    fi
}

attempt "entering, then finishing, then pricing" accepted '
pub fn in_order(mut sheet: OpenSheet<AttachmentCc>, project: Project) -> Result<Columns, Refusal> {
    sheet.enter(CcLine::GrossPlant, 1)?;
    match sheet.finish() {
        Ok(worked) => worked.price(project),
        Err(refused) => Err(refused.0),
    }
}'

attempt "entering on a worked sheet" refused '
pub fn enter_on_worked(sheet: &mut WorkedSheet<AttachmentCc>) -> Result<(), Refusal> {
    sheet.enter(CcLine::GrossPlant, 1)
}'

attempt "entering after finishing" refused '
pub fn enter_after_finish(mut sheet: OpenSheet<AttachmentCc>) -> Result<(), Refusal> {
    let _worked = sheet.finish();
    sheet.enter(CcLine::GrossPlant, 1)
}'

attempt "pricing on an open sheet" refused '
pub fn price_on_open(sheet: &OpenSheet<AttachmentCc>, project: Project) -> Result<Columns, Refusal> {
    sheet.price(project)
}'

attempt "cloning an open sheet" refused '
pub fn clone_open(sheet: &OpenSheet<AttachmentCc>) -> bool {
    sheet.clone().is_ok()
}'

attempt "copying a worked sheet" refused '
pub fn copy_worked(sheet: &WorkedSheet<AttachmentCc>) -> WorkedSheet<AttachmentCc> {
    *sheet
}'

[ "$failed" = 0 ] && echo "all as it must be"
exit "$failed"
