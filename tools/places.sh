#!/bin/sh
# Prints the lines of src/ among which the places of each point of docs/DESIGN-PASS.md were found by reading. From the top of the repository.
src() { grep -rnE "$1" crates/*/src --include='*.rt'; }
case "$1" in
1) src '^(pub )?enum |^\s+(pub )?\w+: bool,|Result<[^<>]*, u(8|16|32|64|size)>|which: u|-> u8$|if let (Err|Some)\((refusal|why)\)|(Ok|Err|Some)\(\w\) => (Ok|Err|Some)\(|None => (None|Ok\()|Option<LoadRefusal>|\{ Some\(\w+\) \} else \{ None \}|Err\(LoadRefusal::Call' ;;
2) src 'word (/|%) |>= 0x[0-9A-F_]+ \{|fn (raise|lower|unreached|lowest|follow|write_out|slowest|fill_tables|set|drop_wire|trial)\(' ;;
3) src '^\s+(for|while|loop)\b|^\s+\w+ \+= ' | grep -v '/src/tests\|graph_tests' ;;
4) src '^impl.* for |fn (kind_of|wire_in|limit|limit_word)\(| as u(8|16)\b' ;;
5) src '^\s+(requires|ensures) ' | sed -E 's/^[^:]*:[0-9]+:\s*//; s/^(requires|ensures) \w* ?\{/\1 {/' | sort | uniq -c | sort -rn | awk '$1 > 2' ;;
6) src '\[[^;]+; [0-9]+\]|(len|gates|wired|count): usize|(out|lens|table|marks): &mut \[' | grep -v graph_tests ;;
7) src 'fn\(|dyn |impl Fn|[A-Z]: Fn' ;;
8) find crates/*/proofs -name '*.antt' | xargs cat | wc -l
   find crates/*/proofs -name Answers.antt | xargs cat | grep -cE '^(pub )?[a-z].* : goal\.' ;;
*) for n in 1 2 3 4 5 6 7 8; do printf 'point %s: ' $n; if [ $n = 8 ]; then sh "$0" 8 | tr '\n' ' '; echo; else sh "$0" $n | wc -l; fi; done ;;
esac
