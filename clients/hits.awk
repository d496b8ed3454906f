# Of the replies to a script of searches each hit, behind the number of its search. Ends with 1 unless all `of` searches were
# answered. Usage: awk -v of=COUNT -f hits.awk
/^hit / { print done + 1, $2 }
/^end / { done++ }
END { exit done != of }
