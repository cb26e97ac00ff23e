#!/bin/sh
# Run once after respell.py, at the top: the laws of HourSource in snake case, the lemmas that would have their names with _lem,
# the list fact of the library under its own name, and some names that respell.py does not see.
set -e
for f in $(grep -rlE 'someLocation|fewLocations|fewHours|wholeYear|emptyYear|smallPrices' crates README.md docs --include=*.rt --include=*.antt --include=*.md --include=*.edit | grep -v PORT); do
  perl -CSD -i -pe 's/\bsomeLocation\b/some_location/g; s/\bfewLocations\b/few_locations/g; s/\bfewHours\b/few_hours__M/g; s/\bwholeYear\b/whole_year__M/g; s/\bemptyYear\b/empty_year__M/g; s/\bsmallPrices\b/small_prices__M/g' $f
done
for f in $(grep -rlE '\b(few_hours|whole_year|empty_year|small_prices)\b|__M' crates README.md docs --include=*.rt --include=*.antt --include=*.md --include=*.edit | grep -v PORT); do
  perl -CSD -i -pe 's/(?<![\w-])(few_hours|whole_year|empty_year|small_prices)(?![\w-])/$1_lem/g; s/__M//g' $f
done
for f in $(grep -rl 'AllByRecursion as All' crates); do
  perl -CSD -i -pe 's/AllByRecursion as All\b/AllByRecursion/; s/(?<![\w.-])All(?![\w-])/AllByRecursion/g' $f
done
# aliases and a variable, and the laws that the kit's script gives a proof of its own
for f in $(grep -rlE 'A-verb|sizedOf|Line-of|first_of \(Prim' crates --include=*.rt --include=*.antt); do
  perl -CSD -i -pe 's/(?<![\w-])A-verb\b/a_verb/g; s/\bsizedOf\b/sized_of/g; s/\bLine-of\b/line_of/g; s/first_of \(Prim\.search rules, Prim\.grind \(arith, Self\.row\.coded\.inj\)\)/Prim.search rules/' $f
done
