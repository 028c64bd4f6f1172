#!/bin/sh
# Counts the places of the design pass in the sources, point by point, and with -v lists them. docs/DESIGN-PASS.md says what each line means.
# usage: tools/places.sh [-v] [FOLDER]     FOLDER is a checkout; the one that this script lies in if none is named
verbose=
[ "$1" = -v ] && { verbose=1; shift; }
cd "${1:-$(dirname "$0")/..}" || exit 1

show() { # the lines are on standard input
    lines=$(cat)
    printf '%-3s %-62s %4d\n' "$1" "$2" "$(printf '%s' "$lines" | grep -c .)"
    [ -n "$verbose" ] && [ -n "$lines" ] && printf '%s\n' "$lines" | sed 's/^/      /'
}

look() { grep -rnE "$1" crates/*/src; }

look 'fn [a-z_]*(kind|side|head|refused|refusal_of|code|has_number|any_number|check_fault)[a-z_]*(<[^>]*>)?\(.*(-> \(?u(8|32)\b|number: u8)' | show 1a 'a kind, a side or a refusal as a number'
look '^ *(Ok\(.*\)|Err\(.*\)|None|Some\([a-z]+\)) => (return )?(None|Some\(.*|Ok\(.*\)|Err\(.*\)|false|true|\{\}),?$|^ *match (writeln|K::make|F::Kind::make|length_map|Prefix::<W, S>::new)' | show 1b 'a match that hands an Option or a Result on'
look '(while|if) [a-z]+ (>|==) 0 \{|^ *(pub\(crate\) )?(zero|one|link|first|next): u16|heads: Vec<u16>' | show 1c 'a number that is 0 for none'
look '^pub fn .*\(\) -> u8' | show 1d 'a law that answers a number which means nothing'
grep -rhoE '^ *(pub |pub\(crate\) )?fn (side_bit|kind_due|part_head|number_of_[a-z]+|address_bytes|port_bytes|[a-z_]*_sum|yes_count|read_port|read_protocol|numbers|way|bucket_of|run|refused|refusal_of|and|or|has_number|any_number|length_lacking|bit_beyond|compare)\b.*' crates/*/src | show 2a 'functions that have a twin, by name'
look 'const (ROOT|NO_[A-Z]+|WHOLE|BLANK|BOTH|NONE|BARE): ' | show 2b 'constants of values that are all 0 or none'
look '^ *while |for [a-z]+ in [0-9a-z(][^{&]*\.\.' | show 3a 'while loops, and for loops over indices'
look '(count|at|place|left|link) (\+=|= (at\.|put_|next)) ?' | show 3b 'a place or a count carried along by hand'
look 'fn (same|same_[a-z]+|alike|is)\b' | show 4a 'equality by hand'
look 'fn (index|to_number|put_decimal|decimal_length|key|parts_of|turn|is)\(|Refusal::[A-Za-z]+ => [0-9]+,|Place::[A-Za-z]+ => [0-9],|\{a\}\.\{b\}|"refused \{' | show 4b 'conversion and printing by hand'
for c in crates/*; do
    grep -hoE '(requires|ensures)[a-z_ ]*\{ .* \}' "$c"/src/*.rt 2>/dev/null | grep -oE '\b(Grown|Tree|Sound|Ready|LaidOut|Reached|Fitting|AllByRecursion Fitting) [^}×,)]*' | sed -E 's/\.(now|old|new)\b/.*/g; s/ +$//' | sort | uniq -c | awk -v c="$c" '{n = $1; $1 = ""; print c ": " n " of" $0}'
done | show 5a 'a fact that clauses repeat (kinds of it, with the times)'
look '(bytes: &\[u8\], (place|layout|count)|out: &mut \[u8\], (at|place)): |width: u8, length: u8|^ *rounds: u32' | show 5b 'parameters that travel together'
look '\[[A-Z_]+; (256|MOST_RULES)\]|rows: &mut \[RuleRow|slots: \[' | show 6a 'a fixed buffer with a count beside it'
look '(nodes|rows|heads|list): Vec<' | show 6b 'an arena or a table in a Vec'
look 'match (self\.)?(kind|notation|piece|call|rest) \{' | show 7 'a switch on which step to run'
