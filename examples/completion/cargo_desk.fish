# Completion for fish: put it into /usr/share/fish/vendor_completions.d. Made by tools/describe.
function __cargo_desk_words
    set -l given (commandline -opc)
    set -l command
    for word in $given[2..]
        if contains -- $word init migrate stock take read act acts outbox report station waybill holder history key serve help
            set command $word
            break
        end
    end
    switch "$command:$given[-1]"
        case '*:--db' 'take:*' 'read:*'
            __fish_complete_path (commandline -ct)
        case '*:--at' '*:--station' '*:--zone' '*:--after' '*:--agent' '*:--awb' '*:--last' '*:--port' '*:--count'
            return
        case ':*'
            printf '%s\t%s\n' \
                --db 'The station'\''s file; without it, a new station in memory' \
                --at 'Asks the service that runs on this port, instead of a file' \
                --station 'The airport of a new station, three letters; XXX by default' \
                --zone 'The zone of local time, as a POSIX rule, such as the last line of /usr/share/zoneinfo/Europe/Berlin; UTC0 by default' \
                --version 'Prints the version' \
                --help 'Explains it' \
                init 'Makes a station in a file' \
                migrate 'Upgrades a file from version 1 to version 2' \
                stock 'Answers a stock list, CSV on standard input, row by row' \
                take 'Takes telegrams (FWB, FFM or FSU), one from each file' \
                read 'Shows what the desk would read of a telegram, and takes nothing' \
                act 'Runs one command, with its JSON body on standard input' \
                acts 'Runs commands and takes telegrams, one JSON object a line on standard input' \
                outbox 'Prints the messages that you haven'\''t confirmed' \
                report 'Prints a report' \
                station 'Prints the airport, the numbers of the last move, trail line and message, and the versions' \
                waybill 'Prints what is known of a waybill' \
                holder 'Prints who holds a number' \
                history 'Prints what is known of a waybill, its moves, its trail and what was sent' \
                key 'Prints the command that was accepted under a key' \
                serve 'Serves HTTP on 127.0.0.1, one request after another' \
                help 'Explains a command or a refusal'
        case 'act:act'
            printf '%s\t%s\n' \
                take-in 'Adds numbers to the stock, at the desk' \
                issue 'Issues numbers from the desk to an agent' \
                return 'Returns numbers from an agent to the desk' \
                void 'Voids numbers that the desk or any agent holds' \
                book 'Declares a waybill, or changes its declaration while it has no moves' \
                amend 'Changes the declaration of a waybill while all its pieces that came in are free' \
                receive 'Receives pieces of a waybill at its origin' \
                withdraw 'Hands free pieces back to whoever brought them' \
                manifest 'Builds free pieces on a flight' \
                offload 'Takes pieces off a flight that hasn'\''t departed' \
                reroute 'Changes where a flight with nothing on it unloads' \
                depart 'Records that a flight left, with all that is built on it' \
                check-in 'Checks in a waybill: counts the pieces that a flight brought' \
                strike 'Strikes pieces off what a flight should bring, because they were counted before' \
                notify 'Notifies the consignee that pieces are ready' \
                deliver 'Delivers free pieces to the consignee' \
                transfer 'Transfers free pieces to the airline that carries them on' \
                missing 'Reports free pieces as missing' \
                found 'Reports pieces as found: missing pieces first, the rest as surplus' \
                confirm 'Confirms all messages up to a number' \
                --help 'Explains it'
        case 'report:report'
            printf '%s\t%s\n' \
                stock 'The stock, in runs of one holder' \
                announced 'The waybills that are declared and haven'\''t come' \
                shed 'The waybills with pieces in store' \
                shed-days 'The waybills with pieces in store, and since which day' \
                flights 'All noted flights' \
                expected 'What manifests announced' \
                irregularities 'The waybills with missing or found pieces' \
                irregularity-days 'The waybills with missing or found pieces, and since which day' \
                movements 'The movement book' \
                trail 'The lines of the status messages that arrived' \
                sent 'All messages, confirmed or not' \
                station 'The station at a glance' \
                manifest 'The manifest of a flight, what is built on it or left with it' \
                arrivals 'What manifests announced with a flight, and what came of it' \
                --help 'Explains it'
        case 'help:help'
            printf '%s\t%s\n' \
                init 'Makes a station in a file' \
                migrate 'Upgrades a file from version 1 to version 2' \
                stock 'Answers a stock list, CSV on standard input, row by row' \
                take 'Takes telegrams (FWB, FFM or FSU), one from each file' \
                read 'Shows what the desk would read of a telegram, and takes nothing' \
                act 'Runs one command, with its JSON body on standard input' \
                acts 'Runs commands and takes telegrams, one JSON object a line on standard input' \
                outbox 'Prints the messages that you haven'\''t confirmed' \
                report 'Prints a report' \
                station 'Prints the airport, the numbers of the last move, trail line and message, and the versions' \
                waybill 'Prints what is known of a waybill' \
                holder 'Prints who holds a number' \
                history 'Prints what is known of a waybill, its moves, its trail and what was sent' \
                key 'Prints the command that was accepted under a key' \
                serve 'Serves HTTP on 127.0.0.1, one request after another' \
                help 'Explains a command or a refusal' \
                101 'already in stock' \
                102 'not at the desk' \
                103 'not with that agent' \
                104 'used, void or not in stock' \
                105 'the count isn'\''t 1 to 1,000,000, or the run goes past serial 9999999' \
                201 'unknown waybill' \
                202 'already declared, and it has moves' \
                203 'the number is at the desk, or void' \
                204 'wrong station: Receive and Withdraw if the origin isn'\''t here, Amend if pieces were taken over and the origin would be here or no longer here, Manifest and Reroute if it unloads here, Notify and Deliver if the destination isn'\''t here' \
                205 'more received than declared' \
                206 'not enough free pieces; for Notify, none' \
                207 'not that many on the flight' \
                208 'the flight is closed' \
                209 'nothing is on that flight' \
                210 'the consignee isn'\''t notified' \
                211 'not expected on that flight' \
                212 'already checked in, or struck' \
                213 'that part of the manifest was already taken' \
                214 'a line'\''s waybill is already checked in on that flight, or struck' \
                217 'past 9,999 pieces or 999,999 tenths: declared, expected, or received and found together' \
                218 'the flight unloads elsewhere' \
                219 '500 waybills are already on the flight' \
                220 'the shipment ends here: Transfer if the destination is here' \
                221 'the flight isn'\''t noted here' \
                222 'something is built on the flight' \
                223 'more pieces or tenths would go back than are received now' \
                224 'not that many expected on that flight' \
                225 'not all pieces that came in are free' \
                226 'what is here doesn'\''t fit in the new pieces and weight' \
                301 'the telegram can'\''t be read, or a manifest'\''s date doesn'\''t exist' \
                302 'unknown kind of telegram' \
                401 'below what is confirmed, or past the last message' \
                402 'more than 4,294,967,295 moves, trail lines or messages; tested after all other refusals' \
                501 'the key was used for another command; tested before all other refusals'
        case 'outbox:*'
            printf '%s\t%s\n' \
                --after 'The messages after number N' \
                --json 'Prints one JSON object, {"rows":[..],"count":n}' \
                --help 'Explains it'
        case 'report:*'
            printf '%s\t%s\n' \
                --open 'flights: those that haven'\''t departed; expected: what isn'\''t checked in; irregularities: those that don'\''t even out' \
                --agent 'stock: the numbers that this agent has' \
                --awb 'movements, trail, sent: the rows of this waybill' \
                --after 'movements, trail, sent: the rows after number N' \
                --last 'movements, trail: the last N rows' \
                --json 'Prints one JSON object, {"rows":[..],"count":n}' \
                --help 'Explains it'
        case 'station:*'
            printf '%s\t%s\n' \
                --json 'Prints one JSON object, {"rows":[..],"count":n}' \
                --help 'Explains it'
        case 'key:*'
            printf '%s\t%s\n' \
                --json 'Prints one JSON object, {"rows":[..],"count":n}' \
                --help 'Explains it'
        case 'serve:*'
            printf '%s\t%s\n' \
                --port 'The port, 1 to 65535' \
                --count 'How many connections to serve, 1 to 4294967295' \
                --help 'Explains it'
        case '*:*'
            printf '%s\t%s\n' \
                --help 'Explains it'
    end
end
complete -c cargo_desk -f -a '(__cargo_desk_words)'
complete -c desk -w cargo_desk
