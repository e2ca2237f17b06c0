//! How the programs are run: `NAME: COMMAND < FILE > FILE`, where the second file is for commands below. Each name is a file of digests.

/// Of every hundred messages, stored and changed.
pub const EVERY: &str = "
lines: tcshow < hex
statistics: tcshow -s < hex
outline: tcshow --outline < hex
outline-all: tcshow --outline --all --summary < hex
tree: tcshow --tree -s < hex
json: tcshow --json < hex > lines.json
colors: tcshow --color always --time delta capture
diff: tcshow --diff before lines.json
make: tcmake < lines.json
make-settle: tcmake --settle < lines.json
make-misspelt: tcmake < misspelt.json
request: tcmake --request --verbose < lines.json
request-in-order: tcmake --request --in-order < lines.json
plan: tcmake --plan before.json < lines.json
";

/// Of every hundred stored messages, besides.
pub const STORED: &str = "
capture: tcshow --acks --summary answers
capture-json: tcshow --json --acks answers > answers.json
capture-make: tcmake < answers.json
capture-outline: tcshow --outline --color always answers
oneline: tcshow --oneline < hex
colors-outline: tcshow --color always --outline --all < hex
colors-tree: tcshow --color always --tree answers
bare-tc: tcshow --no-header tc --json < bare > bare.json
bare-action: tcshow --no-header action --outline < bare
bare-make: tcmake --no-header < bare.json
time-local: tcshow --time local capture
time-date: tcshow --time date capture
time-epoch: tcshow --time epoch --outline capture
time-relative: tcshow --time relative capture
time-delta-json: tcshow --time delta --json capture
since: tcshow --since 2023-11-14T22:14:00Z --until 2023-11-14T22:20:00Z capture
refused: tcshow --refused --summary capture
refused-answers: tcshow --refused answers
kind: tcshow --kind htb --summary capture
kind-flower: tcshow --kind flower < hex
kind-action: tcshow --kind mirred --json < hex
type: tcshow --type tclass --summary < hex
type-number: tcshow --type 44 -s < hex
dev: tcshow --dev 7 < hex
dev-name: tcshow --dev wan answers
handle: tcshow --handle 1: < hex
parent: tcshow --parent root < hex
parent-ingress: tcshow --parent ingress < hex
chain: tcshow --chain 0 --pref 1 < hex
pref: tcshow --pref 1 --tree < hex
names: tcshow --names names -s < hex
files: tcshow hex capture lines.json
files-tree: tcshow --tree capture hex
read-json: tcshow < lines.json
diff-self: tcshow --diff -s hex lines.json
diff-color: tcshow --diff --color always before lines.json
make-as-given: tcmake --as-given < lines.json
make-no-header: tcmake --no-header < lines.json
make-pcap: tcmake --pcap < lines.json
make-stream: tcmake --stream < lines.json
make-as-given-misspelt: tcmake --as-given < misspelt.json
request-pcap: tcmake --request --pcap < lines.json
request-index: tcmake --request --index 3 --stream < lines.json
request-now: tcmake --request --now before.json < lines.json
request-now-replace: tcmake --request --now before.json --replace-actions < lines.json
request-names: tcmake --request --names names < lines.json
request-misspelt: tcmake --request < misspelt.json
plan-index: tcmake --plan before.json --index 3 < lines.json
";

/// Of what an interface has and is to have.
pub const STATES: &str = "
states-now: tcshow --json --acks now > now.json
states-wanted: tcshow --json wanted > wanted.json
states-plan: tcmake --plan now.json < wanted.json
states-plan-back: tcmake --plan wanted.json < now.json
states-plan-index: tcmake --plan now.json --index 7 < wanted.json
states-request: tcmake --request < wanted.json
states-request-in-order: tcmake --request --in-order --verbose < wanted.json
states-request-now: tcmake --request --now now.json --replace-actions < wanted.json
states-lines: tcshow now
states-tree: tcshow --tree now
states-tree-json: tcshow --tree -s wanted.json
states-diff: tcshow --diff now wanted
states-diff-json: tcshow --diff -s wanted.json now.json
";

/// Of captures, whole and broken.
pub const CAPTURES: &str = "
captures: tcshow --summary < capture
captures-json: tcshow --json capture > lines.json
captures-outline: tcshow --outline --time date --acks capture
captures-tree: tcshow --tree capture
captures-relative: tcshow -s --time relative --dev 7 capture
captures-make: tcmake --stream < lines.json
captures-request: tcmake --request < lines.json
captures-diff: tcshow --diff capture lines.json
";

/// Of each kind.
pub const KINDS: &str = "
explain: tcshow --explain KIND
kind-each: tcshow --kind KIND stored
";

/// Of neither.
pub const ALONE: &str = "
alone-explain: tcshow --explain
alone-schema: tcshow --schema
alone-example: tcshow --example
alone-example-outline: tcshow --example --outline --time date
alone-example-json: tcshow --example --json
alone-example-tree: tcshow --example --tree -s
alone-example-broken: tcshow --example broken
alone-example-broken-json: tcshow --example broken --json
alone-version: tcshow --version
alone-help: tcshow --help
alone-make-version: tcmake --version
alone-make-help: tcmake --help
alone-nothing: tcshow < empty
alone-make-nothing: tcmake < empty
alone-request-nothing: tcmake --request < empty
alone-plan-nothing: tcmake --plan empty < empty
alone-no-file: tcshow none
alone-no-plan: tcmake --plan none < empty
alone-unknown: tcshow --unknown
alone-unknown-kind: tcshow --explain nonesuch
alone-two-forms: tcshow --json --outline < empty
alone-diff-one: tcshow --diff one
alone-make-both: tcmake --pcap --stream < empty
alone-plan-request: tcmake --plan empty --request < empty
alone-index: tcmake --request --index x < empty
alone-handle: tcshow --handle 1:2:3 < empty
alone-since: tcshow --since yesterday < empty
alone-text: tcshow < text
alone-make-text: tcmake < text
alone-make-file: tcmake text
";
