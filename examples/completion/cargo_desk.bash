# Completion for bash, of the program and of the wrapper: source it, or put it into the folder
# /usr/share/bash-completion/completions as `cargo_desk`, with a link to it as `desk`. Made by tools/describe.
# shellcheck disable=SC2207
_cargo_desk() {
    local cur=${COMP_WORDS[COMP_CWORD]} command='' words='' word
    COMPREPLY=()
    for word in "${COMP_WORDS[@]:1:COMP_CWORD - 1}"; do
        case $word in init | migrate | stock | take | read | act | acts | outbox | report | station | waybill | holder | history | key | serve | help) command=$word; break ;; esac
    done
    case $command:${COMP_WORDS[COMP_CWORD - 1]} in
        *:--db | take:* | read:*) COMPREPLY=($(compgen -f -- "$cur")) ;;
        *:--at | *:--station | *:--zone | *:--after | *:--agent | *:--awb | *:--last | *:--port | *:--count) words='' ;;
        :*) words='--db --at --station --zone --version --help init migrate stock take read act acts outbox report station waybill holder history key serve help' ;;
        act:act) words='take-in issue return void book amend receive withdraw manifest offload reroute depart check-in strike notify deliver transfer missing found confirm --help' ;;
        report:report) words='stock announced shed shed-days flights expected irregularities irregularity-days movements trail sent station manifest arrivals --help' ;;
        help:help) words='init migrate stock take read act acts outbox report station waybill holder history key serve help 101 102 103 104 105 201 202 203 204 205 206 207 208 209 210 211 212 213 214 217 218 219 220 221 222 223 224 225 226 301 302 401 402 501' ;;
        outbox:*) words='--after --json --help' ;;
        report:*) words='--open --agent --awb --after --last --json --help' ;;
        station:*) words='--json --help' ;;
        key:*) words='--json --help' ;;
        serve:*) words='--port --count --help' ;;
        *:*) words='--help' ;;
    esac
    COMPREPLY+=($(compgen -W "$words" -- "$cur"))
}
complete -o filenames -F _cargo_desk cargo_desk desk
