# Completion for fish of tcshow, tcmake, tcrewrite, tcsave, tcrestore, tcapply and tcnl. Written by man/generate.

set -l kinds atm basic bfifo blackhole bpf cake cake_mq cbq cbs cgroup choke clsact codel connmark csum ct ctinfo drr dsmark dualpi2 etf ets flow flower fq fq_codel fq_pie fw gact gate gred hfsc hhf htb ife ingress ipt matchall mirred mpls mq mqprio multiq nat netem noop noqueue pedit pfifo pfifo_fast pfifo_head_drop pie plug police prio qfq red route rr rsvp rsvp6 sample sfb sfq simple skbedit skbmod skbprio taprio tbf tcindex teql0 tunnel_key u32 vlan xt
set -l types qdisc tclass tfilter chain action newqdisc delqdisc getqdisc newtclass deltclass gettclass newtfilter deltfilter gettfilter newchain delchain getchain newaction delaction getaction

# fish itself quotes what it inserts: an interface may be called `$(id)`.
function __conjareho_devices
    for path in /sys/class/net/*
        test -d $path; and string replace /sys/class/net/ '' -- $path
    end
end

# True after the word dev.
function __conjareho_after_dev
    string match -q -- dev (commandline -opc)[-1]
end

complete -c tcshow -s h -l help -d 'Print help information'
complete -c tcshow -s V -l version -d 'Print version information'
complete -c tcshow -s r -l read -d 'Same as FILE' -r -F
complete -c tcshow -l example -d 'Read a small capture that tcshow has, instead of a file' -x -a "whole broken"
complete -c tcshow -l no-header -d 'Each line of hex is a message only' -x -a "tc action"
complete -c tcshow -l names -d 'Read interface names from FILE: lines like \'7 eth0\', or \'ip -o link\'' -r -F
complete -c tcshow -s s -l statistics -d 'Print statistics on the line of each object'
complete -c tcshow -l time -d 'Print times in FORMAT' -x -a "local date epoch delta relative"
complete -c tcshow -l acks -d 'Print acknowledgements without a text too'
complete -c tcshow -l tree -d 'Print the objects of a dump below their parents, at the end of the input'
complete -c tcshow -s v -l outline -d 'Print an outline of each message, with every attribute on a line'
complete -c tcshow -l json -d 'Print each message as one line of JSON'
complete -c tcshow -l oneline -d 'Print lines, as without it; the next release lacks it'
complete -c tcshow -l all -d 'With --outline, print padding attributes and fields as well'
complete -c tcshow -l color -d 'Use colors (default: auto)' -x -a "auto always never"
complete -c tcshow -l diff -d 'Compare two FILEs: - only in the first, + only in the second, ~ changed'
complete -c tcshow -l summary -d 'Print message counts at the end'
complete -c tcshow -l kind -d 'Messages of this kind, and messages that contain an action of this kind' -x -a "$kinds"
complete -c tcshow -l type -d 'Messages of this type: newtclass, RTM_NEWTCLASS, tclass, or a number' -x -a "$types"
complete -c tcshow -l dev -d 'Messages about this interface, by index or name' -x -a '(__conjareho_devices)'
complete -c tcshow -l handle -d 'Messages with this handle' -x -a "root ingress clsact"
complete -c tcshow -l parent -d 'Messages with this parent' -x -a "root ingress clsact"
complete -c tcshow -l chain -d 'Filters in this chain, and the chain itself' -x
complete -c tcshow -l pref -d 'Filters with this priority' -x
complete -c tcshow -l since -d 'Messages captured at or after TIME' -x
complete -c tcshow -l until -d 'Messages captured at or before TIME' -x
complete -c tcshow -l refused -d 'Malformed messages, and errors and warnings that the kernel returned'
complete -c tcshow -l explain -d 'Describe the attributes of KIND; without KIND, list all kinds' -x -a "$kinds"
complete -c tcshow -l schema -d 'Print the JSON Schema of a --json line'
complete -c tcmake -f
complete -c tcmake -s h -l help -d 'Print help information'
complete -c tcmake -s V -l version -d 'Print version information'
complete -c tcmake -l no-header -d 'Print hex without the netlink header'
complete -c tcmake -l pcap -d 'Write a pcap capture (link type 253, LINKTYPE_NETLINK)'
complete -c tcmake -l stream -d 'Write binary netlink messages, one after another'
complete -c tcmake -l settle -d 'Build the canonical message instead, and report each change'
complete -c tcmake -l as-given -d 'Build the bytes shown, without checking them'
complete -c tcmake -l request -d 'Build the requests that restore a dump, in an order that works'
complete -c tcmake -l plan -d 'Build the requests that lead from FILE (tcshow --json) to what is read' -r -F
complete -c tcmake -l in-order -d 'Keep the order of the input, and don\'t compare lines with each other'
complete -c tcmake -l index -d 'Address the requests to the interface with index N' -x
complete -c tcmake -l now -d 'Leave actions that are as in FILE (tcshow --json), change those that differ' -r -F
complete -c tcmake -l replace-actions -d 'Change actions that differ even if filters of other interfaces use them'
complete -c tcmake -l names -d 'Find the interfaces of a save by name in FILE (ip -o link)' -r -F
complete -c tcmake -l verbose -d 'Report dumps that need no request because another request creates them'
complete -c tcrewrite -f
complete -c tcsave -f
complete -c tcsave -s h -l help -d 'Print help information'
complete -c tcsave -s V -l version -d 'Print version information'
complete -c tcrestore -l dev -d 'Restore the only interface of FILE as DEV' -x -a '(__conjareho_devices)'
complete -c tcrestore -l map -d 'Interface of FILE, and its name now; can be repeated' -x
complete -c tcrestore -l clear -d 'First delete the root, ingress and clsact qdiscs of the interfaces'
complete -c tcrestore -l partial -d 'Leave out what can\'t be made, and report it'
complete -c tcrestore -l replace-actions -d 'Change actions that filters of other interfaces use too'
complete -c tcrestore -l allow-down -d 'Make filters that redirect to an interface that is down: it drops packets'
complete -c tcrestore -l no-rollback -d 'Don\'t go back if something fails; --clear even what can\'t be made again'
complete -c tcrestore -l state -d 'Folder for the last ten states before [default: /var/lib/conjareho]' -x -a '(__fish_complete_directories)'
complete -c tcrestore -s h -l help -d 'Print help information'
complete -c tcrestore -s V -l version -d 'Print version information'
complete -c tcapply -s h -l help -d 'Print help information'
complete -c tcapply -s V -l version -d 'Print version information'
complete -c tcapply -s n -l dry-run -d 'Print the plan, and send nothing: - deleted, + made, ~ changed'
complete -c tcapply -l check -d 'Carry the plan out in a new network namespace, and send nothing here'
complete -c tcapply -l replace-actions -d 'Change actions that filters of other interfaces use too'
complete -c tcapply -l allow-down -d 'Make filters that redirect to an interface that is down: it drops packets'
complete -c tcapply -l wait -d 'How long another tcapply is waited for [default: 10]' -x
complete -c tcapply -s q -l quiet -d 'Don\'t say what was done'
complete -c tcapply -l dev -d 'Apply the only interface of FILE to DEV; or each one that COMMAND sets up' -x -a '(__conjareho_devices)'
complete -c tcapply -l map -d 'Interface of FILE, and its name now; can be repeated' -x
complete -c tcapply -l try -d 'Go back unless Enter is pressed within SECONDS, or if the terminal hangs up' -x
complete -c tcapply -l no-rollback -d 'Don\'t go back if something fails; delete even what can\'t be made again'
complete -c tcapply -l state -d 'Folder for the last ten states before [default: /var/lib/conjareho]' -x -a '(__fish_complete_directories)'
complete -c tcnl -f
complete -c tcnl -n '__fish_use_subcommand' -s h -l help -d 'Print help information'
complete -c tcnl -n '__fish_use_subcommand' -s V -l version -d 'Print version information'
complete -c tcnl -n '__fish_seen_subcommand_from dump' -l links -d 'Begin with the interfaces of the kernel (RTM_NEWLINK)'
complete -c tcnl -n '__fish_seen_subcommand_from dump' -s h -l help -d 'Print help information'
complete -c tcnl -n '__fish_seen_subcommand_from monitor' -l links -d 'Begin with the interfaces of the kernel (RTM_NEWLINK)'
complete -c tcnl -n '__fish_seen_subcommand_from monitor' -s h -l help -d 'Print help information'
complete -c tcnl -n '__fish_seen_subcommand_from send' -l any -d 'Send requests of other types too'
complete -c tcnl -n '__fish_seen_subcommand_from send' -s h -l help -d 'Print help information'
complete -c tcnl -n '__fish_seen_subcommand_from clear' -s h -l help -d 'Print help information'
complete -c tcnl -n __fish_use_subcommand -a dump
complete -c tcnl -n __fish_use_subcommand -a monitor
complete -c tcnl -n __fish_use_subcommand -a send
complete -c tcnl -n __fish_use_subcommand -a clear
complete -c tcsave -a '(__conjareho_devices)'
complete -c tcrewrite -a 'tc action'
complete -c tcnl -n '__fish_seen_subcommand_from dump; and not __conjareho_after_dev' -a 'qdisc class filter chain action dev'
complete -c tcnl -n '__fish_seen_subcommand_from clear; and not __conjareho_after_dev' -a dev
complete -c tcnl -n '__fish_seen_subcommand_from dump clear; and __conjareho_after_dev' -a '(__conjareho_devices)'
