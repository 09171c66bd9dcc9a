#!/bin/sh
# Counts, in the sources of a commit, the lines that docs/DESIGN-PASS.md speaks of: `tools/design_places.sh COMMIT`. A line is of the older form or only near it:
# which places are meant was read, and stands on that page. A pattern names what the sources had at the first commit of the page, so a new name is not found.
# With `-l` before the commit it prints the lines themselves.
set -eu
lines=no
if [ "${1:-}" = -l ]; then lines=yes; shift; fi
commit=${1:-HEAD}

# key, what is looked for, pattern
look() {
    if [ "$lines" = yes ]; then
        echo "== $1 ($2)"; git grep -nE "$3" "$commit" -- 'crates/*/src/*.rt' || true
    else
        echo "$1 $(git grep -hE "$3" "$commit" -- 'crates/*/src/*.rt' | wc -l) ($2)"
    fi
}

look C1.1 '1, declarations: own Option and Result, flags, numbers for kinds and refusals' '^[^/]*(\b(kind|mode|opmode|policy|command|state|refusal|number|selected|awaited|before|after|next|last|builds|built|backed|address|input|c): u(8|32)\b|\b[abi]: u(8|32)\b|\b(done|failed|readonly|below|usable): bool\b|\b(activity|frequency|concerned|weight): (Row|u16)\b|\benum Decoded\b|-> Stepped\b|\b[A-Z_]+_SLOT: usize|^(pub )?const [A-Z_0-9]+: u32 = [0-5];|NO_KEY: u16|(refusal|_check|print|_load|_set_windows|on_measurement|number_of)\(.*-> u8|fn (run|run_into|sheet_run|unselected_mode|slot|row_at|number_at|byte_at|quotient|no_windows|read_sheet|split|sampled|kept)[<(]|^\) -> u8$|\(u8, (i16|u8)\)|type Windows|const READ_ONLY|-> Decoded$)'
look C1.2 '1, such numbers in bodies' '^[^/]*(\b0x[0-9a-f]{2}\b|(refusal|number|check\(.*\)) [!=]= 0|return (1?[1-9]|10|256);|^ +(0|6|14|256)$|\brefusal: [0-9]|=> 12|else \{ (16|x|0) \}|settled\(0\)|[!=]= 0[,)]|(builds|backed) [!=]?= [01]|NO_KEY|sum: 0|[(= ]9[];,)]|\[1; 8\]|(const|static) READ_ONLY|regs\[REGISTERS\]|key % 16|number_in\(|concerned = |, 1, 0\)|% 2 \* [0-9]+|wide64\((records|state)|floor_div\(|if_kept\(|k < 8 \{ v|\.(below|done|failed|readonly) \{|Decoded::Event\([e_]\)|= s\.core|\bsplit\()|^ +m / [0-9]+ % 2'
look C2.1 '2, twins by name' '\bfn (either|pick|weigh|weigh16|if_kept|up|one_more|longer_[a-z]+|down|less_one|lane|wide[0-9]*|is_(input|tracked|counted|free_run|holdover|locked|offset)|in_range|lanes|bytes|put|at_input|half_of|byte_of|kept|stored|least|half_at|word_at|count_at|sheet_check|sheet_run|run|push|make|unit_[a-z_]+|on_tick|looped|alarmed|event|register_at)\b|const (POLICY|CONTROL)\b'
look C2.2 '2, twins by shape' '^ +if .*\{ .* \} else \{ .* \}$|^ +(x|n|mode) as [a-z0-9]+$|^ +both\(1 <=|^ +\} else \{$|-1 - |\.refusal == 0|number == 0|-> Row$|core: k,|\[0u8; SLOTS\]|soak\[?.*== FULL_SOAK|\bc < 1 \{|columns\[start|records\[first|unlock: u?0?,?$|(unlock|wait): (u32|0),|/ unit % |32 \* wide16|records\.len\(\) / 4|either\((level|magnitude) <= |mask_of\($|so_far \+ 1|either\(.*NO_KEY\)|^ .*Buckets \{$|status_byte\($|delay_floor\(registers|= numbers\.|fn (fresh|make_with|with_[a-z]+|alarm|unsoak|step|handle|run_settings|run_events|within|events_good|ascends|number_at|byte_at|row_at|(week|set|windows|load)_refusal)\b'
look C3.1 '3, loops' '^ *(while|for) '
look C3.2 '3, rows written out by index' '^[^/]*\[[0-9]\]|^ +[a-z_(]*[mu] / [0-9]+ % 2|weigh16\([a-h],|records\[first|^ +(INPUT|READ_ONLY),|value_byte\(k|\(set == 1,|half_at\(s,|wide\(s\[at\]\) \+|bytes_of\((lower|upper),|16_777_216 \*|^const [A-Z]+: \[u32; [0-9]+\]'
look C4.1 '4, conversions, bits, clamps, comparisons and printing' '^[^/]*(\bas (u8|u16|u32|u64|usize|i16|i32|i64)\b|\b(wide[0-9]*|weigh(16)?|either|pick|if_kept|both|one_of|least|larger|up|down|one_more|longer_[a-z]+|less_one|lane|magnitude|old_offset|quotient|split|joined|floor_div|twos|byte_of|half_of|word_of|last_of|number_in|mode_number|own_register|advanced|page_count|signed_word|byte_at|half_at|word_at|count_at|is_(zero|offset|input|tracked|counted|free_run|holdover|locked|unmasked)|in_(range|steps|window|bounds)|follows|freed|put_[a-z]+|digit|digits_of|name_of|print_sheet)\(|\bwithin\((z|within|sum|sums)\b|struct Digits|fn (put\(byte|lines|refused|lay_out|ascends|qualified_at|slot|limits_apart)|_000_000_000 |limits_apart\(|qualified_at\(|slot\(a\)| (stored|kept)\((a, v|k, t)| / (unit|[0-9]+) % | % [0-9]+)|page_count\(n\)'
look C4.2 '4, copies, and structs made anew field by field' '^ *let (mut )?[a-z_0-9]+ = (\*[a-z_]+|[a-z_0-9]+(\.[a-z_]+)+|k|t|start|TABLE);|^ *\*[a-z_]+ = |^ +(next|rest)\.[a-z_]+ = |(\b[a-z_]+): \5,$|columns = digits_of|^ +(return )?Loop \{$|refusal: s\.refusal'
look C5.1 '5, clauses with a fact that stands in three or more' '^ +(ensures|requires).*(with_soak m soak\.now|m : stored\.Monitors|\baltered\b|settings_from regs|\bFollows\b|\bHanded\b|\bacross\b|\bwholly\b|\(kept |\bGives\b|\bLeads\b|\bgiven \(|result\.refusal|\bwith_core\b|\bmeaning \(|seen k|entering regs|\bgood \(|\bin_map a\b|\bdecimal n\b|\(s : Stored\)|\binputs_of\b|\bMade\b|\bhistory_of\b|\bSteps t result|\bsaturated\b|\bmode_of\b|\bloop_of\b|\bchoice_of\b|\bdecoded_of\b|\bis_set\b|\bticks_of\b|\beight\b|\bno_key\b|\bis_input\b|\bis_tracked\b|1 ≤ unit|result < 256|< 65_536|first_windows count|busy \(windows_of|\bdelay_ticks\b|\bPuts\b|\bover \(|\b4 (\*|≤) |length part\.now|front sheet\.now|output_after sheet\.now|check sheet\.now room|\bmin .* \([a-z]+ \+ 1\)|result ≡ \(if [a-z]+ then [a-z]+ else [a-z0]+\))'
look C5.2 '5, parameters that travel together' '^[^/]*(\b(level|decay|activity|frequency|remainder|soak|sets|assigned|sums|building|backup|windows|regs|sizes|highs|lows|lasts|keys|handed|out): &|\b(handed|place|selected): u32|\b(kind|policy|opmode|count|size|mask): u8|\bword: i32|\b(ready|held|lock|locked|automatic): bool|\b(at|room|n): usize|\bv: u8|\bi: u8, n: u8|^ +i: u8|\bc: (Choice|u32)|\bb: Buckets|\bx: i32|\ba: u8|\be: Event|\blast: u16|\bactivity: u16|\b(kind: u8, )?a: u8, b: u8)'
look C6.1 '6, lengths, places and counts beside a buffer' '^[^/]*(\bcount: (u8|u16)\b|\b(built|backed): u8|\b(length|start|settings|events|at|n|width|room): usize|\b(sums|building|backup|columns): (&mut |&)?(Sums|\[u8; [0-9]+\])|type (Sums|Windows|Registers)|fn (put_|run|sheet_run|refused|lines).*-> usize|const (SLOTS|REGISTERS): |[^.]\[\.\.(n|length)\]|buffer: &mut|out: &mut \[u8; |fn (value|value_byte)\()'
look C6.2 '6, rows beside rows, index arithmetic, searches' '^[^/]*(^ +pub [a-z]+: Row,|\b[a-z]: Row, [a-z]: Row|: &(mut )?Row\b|concerned: Row|type (Keys|Windows)|const TABLE|= (m|numbers)\.[a-z]+;|_SLOT: usize|= .*\b(2|4|8|LINE_BYTES) \* [a-z]|windows\[2 \*|len\(\) / 4|part\[[0-9]\]|out\[[0-9]\]|s: Row, k: &Keys|regs: &Registers\) -> (Keys|u8)$|\[\(n % 4\) as usize\]|table\[k\]|\(i - 1\) as usize|least\(k\[|fn (is_busy|slot|best_of|of_set|events_good)\()'
look C7.1 '7, tests of a number' '^ *(\} else )?if ([a-z_.]+ == (0x[0-9a-f]+|[0-9]+|[A-Z_]+|b|before)|[ack] (<|<=) (0x[0-9a-f]+|[0-9]+)|(number|sheet::check\(.*\)) != 0|[A-Z_0-9]+ < mode|!?(is_[a-z]+|pll::is_[a-z_]+|freed)\(.*\)) \{|\b(either|pick)\([a-z]+ == [0-9]|^ +[0-9_]+ => |place < WEEK \{'
look C7.2 '7, matches, flags, refusals in turn, tables' '^ *match [a-z]+ \{|let Decoded::Event|^pub enum |Decoded::Bad$|^ *if !?[a-z_]+(\.[a-z]+)?(\([a-z_&, .]*\))? \{$|if ([bj]|t\.[a-z]+) [<>] (1|n|42|127) \{$|if ready \{|return (1?[1-9]|10);|^const [A-Z]+: \['
look functions 'functions' '^(pub )?(extern "C" )?fn '
look fields 'a field given its own name, `f: f`' '(\b[a-z_]+): \1,$'
look casts '4, casts' '\bas (u8|u16|u32|u64|usize|i16|i32|i64)\b'
look lets '4, `let x = s.x`' 'let (mut )?[a-z_0-9]+ = [a-z_0-9]+(\.[a-z_]+)+;'

# 8, the proofs: files, lines, `let a = b in` of a name, of a projection
files=$(git ls-tree -r --name-only "$commit" -- crates | grep -E '^crates/[^/]+/proofs/')
echo "proof files $(echo "$files" | wc -l)"
echo "proof lines $(echo "$files" | sed "s/^/$commit:/" | xargs -n 1 git show | wc -l)"
echo "aliases $(git grep -hE '\blet [^ :=()]+ = [^ .():=]+ in\b' "$commit" -- 'crates/*/proofs/*' | wc -l)"
echo "aliases of a projection $(git grep -hE '\blet [^ :=()]+ = [^ ():=]*\.[^ ():=]* in\b' "$commit" -- 'crates/*/proofs/*' | wc -l)"
