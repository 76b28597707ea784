#!/bin/bash
# Lists the lines of src/ at which the points of the design pass are looked for, or counts them.
# usage: tools/places.sh [-l] [COMMIT]     -l lists the lines; without a commit, the working tree
list=no; [ "$1" = -l ] && { list=yes; shift; }
commit=$1
look() {
  found=$(git grep -nE "$2" $commit -- 'crates/*/src/*.rt' ':!crates/trials' ':!crates/orders/src/tests.rt' | grep -vE ':[0-9]+: *//')
  echo "$1: $(printf '%s' "$found" | grep -c .)"
  [ $list = yes ] && printf '%s\n' "$found"
}
look '1 flags' '\bbool\b'
look '1 how many, or no room' 'Option<\(?usize'
look '1 enums' '^ *pub enum '
look '1 numbers for kinds' '^ *(pub )?const [A-Z_]+: u(8|16|32) ='
look '1 numbers for refusals' 'number: u32|fn number\(|fn refusal_code'
look '2 types and makers of one shape' 'pub struct (Minutes|Chain|Weakest)Book|-> (Minutes|Chain|Weakest)Book|for (Minutes|Chain|Weakest)Book|fn by_(minutes|chain|weakest)'
look '2 functions of one shape' 'fn (next_at|next_other|outs_of|ins_of|list_of|new_entry|between|add|collect|near|far|extend|joined)\b'
look '2 blank records by hand' '^ *from: 0,|fn (blank|clear|blank_front|empty|emptied|blank_entry)\b'
look '2 parts of a slice by hand' '&[a-z.]+\[[a-z0-9]+\.\.[a-z0-9.+ ]+\]'
look '3 loops' '^ *(while|for|loop) '
look '3 places by an index' '[a-z]\[[a-z_.]+( [-+] [a-z0-9_]+)*\]'
look '4 conversion, equality and printing by hand' 'fn (text|progress_text|named|same|word|number|refusal_code|sheet_number|progress_of|ties|equals|as_entry|with|key)\b'
look '4 casts' ' as (u8|u16|u32|u64|usize)\b'
look '4 types that derive copying alone' 'derive\(Clone, Copy\)'
look '5 parameters: the way' 'way: Way'
look '5 parameters: the text printed' 'out: &mut String'
look '5 parameters: the four numbers of an enter' 'minutes: u32'
look '5 a fact as a premise' 'Kept M'
look '5 a fact in many contracts' 'ensures places \{ length'
look '6 a length beside a buffer' '(count|place): usize'
look '6 places in a line' '\bPlace\b'
look '6 a buffer of its own' '\[0; [A-Z_]+\]|; MOST_NUMBERS\]'
look '7 switches' 'match (way|opening\.kind|command)\b'
look '7 a switch by a flag' '^ *if first|first: bool'
