# Completion of tilugba for fish: commands, options, what an option takes, files, and the names that the first file declares.

# The files among the words before the one that is typed, behind the command; options are with their words.
function __tilugba_files
    set -l is_value ''
    for word in (commandline -opc)[3..-1]
        if test -n "$is_value"
            set is_value ''
        else if string match -q -- '--*=*' $word; or contains -- $word $__tilugba_flags
            continue
        else if string match -q -- '--*' $word
            set is_value 1
        else
            echo $word
        end
    end
end

# Whether the command is this one, with fewer files than it takes.
function __tilugba_takes_file
    __tilugba_is $argv[1]; and test (count (__tilugba_files)) -lt $argv[2]
end

# Whether the command is this one, with all its files.
function __tilugba_has_files
    __tilugba_is $argv[1]; and test (count (__tilugba_files)) -ge $argv[2]
end

function __tilugba_is
    set -l words (commandline -opc)
    test (count $words) -ge 2; and test "$words[2]" = $argv[1]
end

function __tilugba_is_first
    test (count (commandline -opc)) -eq 1
end

# The names that the first file declares with a word such as `party`. A statement ends with `;`, and a comment with its line.
function __tilugba_declared
    set -l file (__tilugba_files)[1]
    set file (string replace -r '^~/' "$HOME/" -- $file)
    test -f "$file"; and test -r "$file"; or return
    sed 's/#.*//' -- $file | LC_ALL=C awk -v kind=$argv[1] '
        BEGIN { RS = ";" }
        $1 == kind {
            sub(/=.*/, "")
            count = split($0, parts, ",")
            for (i = 1; i <= count; i++) {
                sub(/:.*/, "", parts[i])
                words = split(parts[i], names, " ")
                print names[words]
            }
        }'
end

complete -c tilugba -f

# made of commands.toml by tools/check-commands
set -g __tilugba_flags --net --plain

complete -c tilugba -n __tilugba_is_first -a check -d 'a verdict on each contract'
complete -c tilugba -n '__tilugba_takes_file check 1' -F

complete -c tilugba -n __tilugba_is_first -a flows -d 'who pays whom, how much and when'
complete -c tilugba -n '__tilugba_takes_file flows 2' -F
complete -c tilugba -n '__tilugba_is flows' -l until -x -d 'a day: one to nine digits, or a date such as 2026-01-05'
complete -c tilugba -n '__tilugba_is flows' -l contract -x -a '(__tilugba_declared contract)' -d 'the name of a contract'
complete -c tilugba -n '__tilugba_is flows' -l net

complete -c tilugba -n __tilugba_is_first -a advance -d 'what fell due before a day, and the portfolio that is left'
complete -c tilugba -n '__tilugba_takes_file advance 2' -F
complete -c tilugba -n '__tilugba_is advance' -l to -x -d 'a day: one to nine digits, or a date such as 2026-01-05'

complete -c tilugba -n __tilugba_is_first -a payoff -d 'the code of a contract, for value'
complete -c tilugba -n '__tilugba_takes_file payoff 1' -F
complete -c tilugba -n '__tilugba_is payoff' -l contract -x -a '(__tilugba_declared contract)' -d 'the name of a contract'
complete -c tilugba -n '__tilugba_is payoff' -l plain

complete -c tilugba -n __tilugba_is_first -a value -d 'what code is worth on a day, discounted'
complete -c tilugba -n '__tilugba_takes_file value 3' -F
complete -c tilugba -n '__tilugba_is value' -l at -x -d 'a day: one to nine digits, or a date such as 2026-01-05'
complete -c tilugba -n '__tilugba_is value' -l from -x -a '(__tilugba_declared party)' -d 'the name of a party'
complete -c tilugba -n '__tilugba_is value' -l to -x -a '(__tilugba_declared party)' -d 'the name of a party'
complete -c tilugba -n '__tilugba_is value' -l asset -x -a '(__tilugba_declared asset)' -d 'the name of an asset'
complete -c tilugba -n '__tilugba_has_files value 3' -a '(__tilugba_declared template)=' -d 'days of a template'

complete -c tilugba -n __tilugba_is_first -a scenarios -d 'what code is worth in each scenario of a table'
complete -c tilugba -n '__tilugba_takes_file scenarios 3' -F
complete -c tilugba -n '__tilugba_is scenarios' -l at -x -d 'a day: one to nine digits, or a date such as 2026-01-05'
complete -c tilugba -n '__tilugba_is scenarios' -l from -x -a '(__tilugba_declared party)' -d 'the name of a party'
complete -c tilugba -n '__tilugba_is scenarios' -l to -x -a '(__tilugba_declared party)' -d 'the name of a party'
complete -c tilugba -n '__tilugba_is scenarios' -l asset -x -a '(__tilugba_declared asset)' -d 'the name of an asset'
complete -c tilugba -n '__tilugba_is scenarios' -l mean -x -a 'half_even half_away floor ceil' -d 'a mode of rounding'
complete -c tilugba -n '__tilugba_has_files scenarios 3' -a '(__tilugba_declared template)=' -d 'days of a template'

complete -c tilugba -n __tilugba_is_first -a migrate -d 'the portfolio in version 2'
complete -c tilugba -n '__tilugba_takes_file migrate 1' -F

complete -c tilugba -n __tilugba_is_first -a expand -d 'the portfolio of a schedule file'
complete -c tilugba -n '__tilugba_takes_file expand 1' -F

complete -c tilugba -n __tilugba_is_first -a positions -d 'what each party gets less what it pays'
complete -c tilugba -n '__tilugba_takes_file positions 2' -F
complete -c tilugba -n '__tilugba_is positions' -l until -x -d 'a day: one to nine digits, or a date such as 2026-01-05'

complete -c tilugba -n __tilugba_is_first -a settle -d 'payments that settle the positions'
complete -c tilugba -n '__tilugba_takes_file settle 2' -F
complete -c tilugba -n '__tilugba_is settle' -l until -x -d 'a day: one to nine digits, or a date such as 2026-01-05'

complete -c tilugba -n __tilugba_is_first -a novate -d 'as advance, with another party in one contract'
complete -c tilugba -n '__tilugba_takes_file novate 2' -F
complete -c tilugba -n '__tilugba_is novate' -l to -x -d 'a day: one to nine digits, or a date such as 2026-01-05'
complete -c tilugba -n '__tilugba_is novate' -l contract -x -a '(__tilugba_declared contract)' -d 'the name of a contract'
complete -c tilugba -n '__tilugba_is novate' -l old -x -a '(__tilugba_declared party)' -d 'the name of a party'
complete -c tilugba -n '__tilugba_is novate' -l new -x -a '(__tilugba_declared party)' -d 'the name of a party'

complete -c tilugba -n __tilugba_is_first -a sample -d 'a summary of built-in contracts'
# end of what is made
