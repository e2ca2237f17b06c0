# What the scripts in cases/ share. It is read by them: `set -u` and a folder of their own are theirs.
# shellcheck shell=sh

failed() { echo "$*"; exit 1; }

# run STATUS COMMAND..: the command ends with this status; what it says is in the file `said`.
run() {
    wanted=$1
    shift
    "$@" > said 2>&1
    got=$?
    [ $got = "$wanted" ] || failed "$*: status $got, wanted is $wanted: $(cat said)"
}
says() { grep -q -e "$1" said || failed "it doesn't say $1: $(cat said)"; }
save() { tcsave "$1" > "$2" || failed "tcsave $1: status $?"; }

# The interfaces d7 and d8, d9 and d10, or those of these names.
links() {
    ip link add name d7 index 7 type veth peer name d8 index 8 && ip link add name d9 index 9 type veth peer name d10 index 10 || failed "no veth"
    for dev in d7 d8 d9 d10; do ip link set $dev up; done
}

# What an interface has, without the times and the numbers that the kernel gives.
shown() {
    {
        tc -d qdisc show dev "$1"
        tc -d class show dev "$1"
        for place in root ingress egress; do tc -d filter show dev "$1" $place 2> /dev/null; done
    } | sed '/used_hw_stats/d; s/ installed.*//; s/index [0-9]* ref [0-9]* bind [0-9]*//; s/direct_packets_stat [0-9]*//; s/refcnt [0-9]*//; s/fh 8[0-9a-f]*:/fh 8xx:/; s/tp [^ ]*//'
}
keep() { shown "$1" > "kept.$1"; }
same() { shown "$1" | diff "kept.$1" - || failed "$1 has something else"; }
clear_dev() {
    tc qdisc del dev "$1" root 2> /dev/null
    tc qdisc del dev "$1" clsact 2> /dev/null
    tc qdisc del dev "$1" ingress 2> /dev/null
    :
}

# htb with a tree below, filters on three sides
tree() {
    tc qdisc add dev "$1" root handle 1: htb default 10
    tc class add dev "$1" parent 1: classid 1:1 htb rate 10mbit
    tc class add dev "$1" parent 1:1 classid 1:10 htb rate "${2:-1}mbit" ceil 10mbit
    tc class add dev "$1" parent 1:1 classid 1:20 htb rate 2mbit
    tc qdisc add dev "$1" parent 1:10 handle 10: tbf rate 1mbit burst 10k latency 50ms
    tc qdisc add dev "$1" parent 1:20 handle 20: pfifo limit 77
    tc filter add dev "$1" parent 1: prio 1 protocol ip u32 match ip dst 10.0.0.1 flowid 1:10
    tc qdisc add dev "$1" clsact
    tc filter add dev "$1" ingress prio 3 protocol ip u32 match ip src 1.2.3.4 action mirred egress mirror dev d9
    tc filter add dev "$1" egress prio 2 protocol ip bpf da bytecode '1,6 0 0 4294967295,' classid 1:1
}
other_tree() {
    tc qdisc add dev "$1" root handle 7: tbf rate 3mbit burst 10k latency 50ms
    tc qdisc add dev "$1" clsact
    tc filter add dev "$1" egress prio 9 protocol ip u32 match ip dst 5.6.7.8 action mirred egress redirect dev d9
}
# many classes, so that restoring takes its time
many() {
    tc qdisc add dev "$1" root handle 1: htb
    for n in $(seq 1 "$2"); do echo "class add dev $1 parent 1: classid 1:$(printf %x "$n") htb rate 1mbit"; done | tc -batch -
}

# tcapply with a folder of its own for the states before
apply() { tcapply --state "$PWD/state" "$@"; }
# plan STATUS FILE REGEX..: the plan ends with this status, and has a line for each of these.
plan() {
    wanted=$1 file=$2
    shift 2
    run "$wanted" tcapply -n "$file"
    for line in "$@"; do says "$line"; done
}

# A command that ignores no signal: what a shell starts in the background ignores SIGINT and SIGQUIT.
awake() { exec env --default-signal "$@"; }

# What was sent: the requests of a run, by the notifications of them.
listen() {
    tcnl monitor > heard &
    monitor=$!
    trap "kill $monitor" EXIT
    sleep 0.3
}

heard() {
    sleep 0.3
    kill $monitor
    wait $monitor 2> /dev/null
    tcshow --json heard | grep -c '"type":"RTM_'
}

# Runs a command, whatever its status is: that is in `got`.
run_any() {
    "$@" > said 2>&1
    got=$?
}

# A save with a kind that this kernel lacks, instead of the last qdisc.
none_such() {
    line='{"type":"RTM_NEWQDISC","message":{"header":{"family":"Unspec","index":7,"handle":"20:","parent":"1:20","info":2},"attributes":[{"Kind":"none_such"}]}}'
    sed "s/.*\"handle\":\"20:\".*\"Kind\":\"pfifo\".*/$line/; s/{\"end\":.*/{\"end\":true}/" "$1"
}

# The cases of a script: `SCRIPT list` prints their names, `SCRIPT NAME` runs one.
main() {
    case ${1:-list} in
        list) sed -n 's/^case_\([a-z0-9_]*\)().*/\1/p' "$0" ;;
        *) "case_$1" ;;
    esac
}
