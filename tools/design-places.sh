#!/bin/sh
# Counts the places that docs/DESIGN-PASS.md speaks of, at the top of a checkout: tools/design-places.sh [-v]. With -v it lists them too.
# A line of the table is one pattern over crates/*/src, but for the last, which counts answers.
show=$1
count() {
    found=$(grep -rnE "$2" crates/*/src | grep -vE '^[^:]*:[0-9]*: *//' )
    n=$(printf '%s' "$found" | grep -c .)
    printf '%-64s %s\n' "$1" "$n"
    [ "$show" = -v ] && [ "$n" -gt 0 ] && printf '%s\n' "$found" | sed 's/^/    /'
    return 0
}
count '1 enums with a variant that stays, refuses or has nothing'   '^ +(Stay|Plain|NoCause|Nothing|Refused)\b.*,$|^ +Refused\(Re'
count '1 structs with an answer or a number beside a value'         '^ +pub (answer: Answer|number: u32, *$|cause: Cause),'
count '1 numbers compared in place of refusals'                     'number\(\) [!=]= |counted_if\(n == '
count '1 a number of a refusal or a cause by a method'              'fn number\(self\)'
count '1 zeros that stand for none'                                 'port: 0, ticks: 0|^ +port: 0,$|no_sets\(\)|nothing\(\)|Cause::NoCause|fn (old_)?table_size\(.*u32 *$|fn lowest_of\(.*u32 *$'
count '2 widths, one function each'                                 'fn (number|long|put_number|put_long|wide|high_octet|low_octet|weigh|flag_octet|flag_of)\([^s]|fn (number|long)\(s:'
count '2 parts of octets, one function each'                        'fn (actor|partner|request|group_at|record_at)\('
count '2 the same call or size for two forms of a table'            'fn (has_asks|has_old_asks|table_size|old_table_size|is_room|goes_forward|goes_back|find|front_size|base_size)\('
count '2 setters, one for each field'                               'fn with_(receive|periodic|mux|selected|current|wait)\('
count '3 loops that count by hand'                                  '^ *while '
count '4 equality by hand'                                          'fn (same\w*|alike|has_grouping|is_held|has_line|has_settings)\('
count '4 a variant asked for by cases'                              'fn (stays|waits|is_attached|collects|distributes|sets_ntt|is_(disabled|current|unselected|defaulted|expired|by_default|default|awaiting|accepted|lacpdu|marker|done)|begins)\('
count '4 conversions by hand'                                       'fn (\w+_code|(receive|periodic|mux|selected|churn|outcome|flag)_of|octet|of_octet|marker_type_octet|flag_octet|aggregation_of)\('
count '4 copies of a field before its use'                          '^ +let \w+ = \w+(\.\w+)+;$'
count '4 printing by hand'                                          'fn print\w*\(|\bprint\(w, '
count '5 clauses: the length of a row of octets'                    'length [a-z_.«»]+ ≡ (record_size|group_size|15|12)\b'
count '5 clauses: a frame is in the memory'                         'requires .*frame_size ≤ length'
count '5 clauses: a table in range, a port in it'                   'requires .*(InTable|table_in_range)'
count '5 link and duplex, or system and number, side by side'       'up: bool, full: bool|system: SystemId, number: u16|^ +number: u16,$'
count '6 rows of octets found by an offset'                         '\[at\.\.at \+|let at = |let base = '
count '7 a switch on which step to run'                             'enum (Step|Role|Stage|Source)\b|match (step|role|stage|source)\b'
printf '%-64s %s\n' '8 answers in proofs' "$(cat $(find crates -name Answers.antt) | grep -cE '^pub [^ ]+ : goal\.')"
