# Completion for bash of tcshow, tcmake, tcrewrite, tcsave, tcrestore, tcapply and tcnl. Written by man/generate.

_conjareho_kinds="atm basic bfifo blackhole bpf cake cake_mq cbq cbs cgroup choke clsact codel connmark csum ct ctinfo drr dsmark dualpi2 etf ets flow flower fq fq_codel fq_pie fw gact gate gred hfsc hhf htb ife ingress ipt matchall mirred mpls mq mqprio multiq nat netem noop noqueue pedit pfifo pfifo_fast pfifo_head_drop pie plug police prio qfq red route rr rsvp rsvp6 sample sfb sfq simple skbedit skbmod skbprio taprio tbf tcindex teql0 tunnel_key u32 vlan xt"
_conjareho_types="qdisc tclass tfilter chain action newqdisc delqdisc getqdisc newtclass deltclass gettclass newtfilter deltfilter gettfilter newchain delchain getchain newaction delaction getaction"

# Offers those of these words that begin as the current one, quoted. None is expanded: an interface may be called `$(id)`.
_conjareho_words() {
    local word quoted typed=${cur#[\"\']}
    for word in "$@"; do
        printf -v quoted %q "$word"
        # After an opening quote come only words that need no quotes.
        [[ $typed != "$cur" && $quoted != "$word" ]] && continue
        [[ $word == "$typed"* || $quoted == "$typed"* ]] && COMPREPLY+=("$quoted")
    done
}

_conjareho_devices() {
    local path names=()
    for path in /sys/class/net/*; do
        [[ -d $path ]] && names+=("${path##*/}")
    done
    _conjareho_words "${names[@]}"
}

_conjareho() {
    # `_filedir` of bash-completion reads `cur`.
    local cur previous words of command word
    cur=${COMP_WORDS[COMP_CWORD]}
    previous=${COMP_WORDS[COMP_CWORD - 1]}
    of=${COMP_WORDS[0]##*/}
    words=
    COMPREPLY=()
    if [[ $of == tcnl ]]; then
        for word in "${COMP_WORDS[@]:1:COMP_CWORD-1}"; do
            [[ " dump monitor send clear " == *" $word "* ]] && command=$word && break
        done
        of=${command:+$of $command}
        of=${of:-tcnl}
    fi
    case $of in
    "tcshow")
        case $previous in
            -r|--read) _filedir; return ;;
            --example) _conjareho_words whole broken; return ;;
            --no-header) _conjareho_words tc action; return ;;
            --names) _filedir; return ;;
            --time) _conjareho_words local date epoch delta relative; return ;;
            --color) _conjareho_words auto always never; return ;;
            --kind) _conjareho_words $_conjareho_kinds; return ;;
            --type) _conjareho_words $_conjareho_types; return ;;
            --dev) _conjareho_devices; return ;;
            --handle) _conjareho_words root ingress clsact; return ;;
            --parent) _conjareho_words root ingress clsact; return ;;
            --explain) _conjareho_words $_conjareho_kinds; return ;;
        esac
        words="-h --help -V --version -r --read --example --no-header --names -s --statistics --time --acks --tree -v --outline --json --oneline --all --color --diff --summary --kind --type --dev --handle --parent --chain --pref --since --until --refused --explain --schema"
        ;;
    "tcmake")
        case $previous in
            --plan) _filedir; return ;;
            --now) _filedir; return ;;
            --names) _filedir; return ;;
        esac
        words="-h --help -V --version --no-header --pcap --stream --settle --as-given --request --plan --in-order --index --now --replace-actions --names --verbose"
        ;;
    "tcrewrite")
        case $previous in
        esac
        words=""
        ;;
    "tcsave")
        case $previous in
        esac
        words="-h --help -V --version"
        ;;
    "tcrestore")
        case $previous in
            --dev) _conjareho_devices; return ;;
            --state) _filedir -d; return ;;
        esac
        words="--dev --map --clear --partial --replace-actions --allow-down --no-rollback --state -h --help -V --version"
        ;;
    "tcapply")
        case $previous in
            --dev) _conjareho_devices; return ;;
            --state) _filedir -d; return ;;
        esac
        words="-h --help -V --version -n --dry-run --check --replace-actions --allow-down --wait -q --quiet --dev --map --try --no-rollback --state"
        ;;
    "tcnl")
        case $previous in
        esac
        words="-h --help -V --version"
        ;;
    "tcnl dump")
        case $previous in
        esac
        words="--links -h --help"
        ;;
    "tcnl monitor")
        case $previous in
        esac
        words="--links -h --help"
        ;;
    "tcnl send")
        case $previous in
        esac
        words="--any -h --help"
        ;;
    "tcnl clear")
        case $previous in
        esac
        words="-h --help"
        ;;
    esac
    if [[ $cur == -* ]]; then
        _conjareho_words $words
        return
    fi
    case $of in
    tcshow|tcrestore|tcapply) _filedir ;;
    tcsave) _conjareho_devices ;;
    tcrewrite) _conjareho_words tc action ;;
    tcnl) _conjareho_words dump monitor send clear ;;
    "tcnl dump")
        case $previous in
        dev) _conjareho_devices ;;
        *) _conjareho_words qdisc class filter chain action dev ;;
        esac
        ;;
    "tcnl clear")
        case $previous in
        dev) _conjareho_devices ;;
        *) _conjareho_words dev ;;
        esac
        ;;
    esac
}

# Where bash-completion isn't there.
declare -F _filedir >/dev/null || _filedir() {
    compopt -o filenames 2>/dev/null
    mapfile -t COMPREPLY < <(compgen "${1:--f}" -- "$cur")
}

complete -F _conjareho tcshow tcmake tcrewrite tcsave tcrestore tcapply tcnl
