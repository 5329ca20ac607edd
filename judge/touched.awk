# Of a callgrind profile by instructions and the disassembly of the same program: lines of the Rust's
# files that have code of which nothing was run. What `derive` writes is passed over.
BEGIN {
    taken = "(consts|types|packed_string|encode|decode|commands/(mod|read_unique_id_by_tag|" \
        "write_tag_descriptor_date|read_device_vars|read_device_id|read_tag_descriptor_date))"
}
FNR == NR {
    if ($1 ~ /^0x/)
        run[substr($1, 3)] = 1
    next
}
/^[0-9a-f]+ <.*>:$/ {
    derived = / as core::(clone::Clone|cmp::PartialEq|fmt::Debug)>/
    next
}
/\.rs:[0-9]+/ && !/^ / {
    line = ""
    if ($1 ~ ("hart-protocol/src/" taken "\\.rs:")) {
        line = $1
        sub(/.*hart-protocol\/src\//, "", line)
    }
    next
}
/^ +[0-9a-f]+:/ && line && !derived {
    sub(/:$/, "", $1)
    code[line] = 1
    if ($1 in run)
        touched[line] = 1
}
END {
    in_order = "sort -t : -k 1,1 -k 2n"
    for (line in code) {
        all++
        if (line in touched)
            come_to++
        else
            print line ": not come to" | in_order
    }
    close(in_order)
    print "judge: the fixed list comes to " come_to + 0 " of " all + 0 " lines with code"
}
