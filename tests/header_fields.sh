# shellcheck shell=sh
# header_fields HEADER FIELDS: for each index of a value that the header names, a row of C: form, name, index, and the bits that the table of
# fields (crates/formats/specs/Fields.antt) gives it, highest and lowest. A name that the table lacks gets bits that the test refuses.
header_fields() {
    {
        sed -n 's/«//; s/»//; s/^position \([A-Z0-9_]*\) = bits \([0-9]*\) \([0-9]*\)$/at \1 \2 \3/p; s/^position \([A-Z0-9_]*\) = bit \([0-9]*\)$/at \1 \2 \2/p' "$2"
        grep -o 'ZLATOMRUK_\(CF_ALU\|CF\|EXPORT\|ALU\|OP2\|OP3\|TEX\|VTX\)_[A-Z0-9_]*' "$1" |
            grep -vx 'ZLATOMRUK_\(CF_ALU\|VTX_GPR\|VTX_SEM\)' | sort -u
    } | awk '
        $1 == "at" { bits[$2] = $3 ", " $4; next }
        {
            name = substr($0, length("ZLATOMRUK_") + 1)
            form = match(name, /^(CF_ALU|VTX_GPR|VTX_SEM)_/) ? substr(name, 1, RLENGTH - 1) : name
            if (form == name) sub(/_.*/, "", form)
            field = substr(name, length(form) + 2)
            # A name that two formats give to different bits has the format before it in the table; one that texture and vertex fetches share
            # and others have too has FETCH_.
            format = form ~ /^VTX/ ? "VTX" : form
            fetch = format == "TEX" || format == "VTX"
            if ((format "_" field) in bits) field = format "_" field
            else if (fetch && ("FETCH_" field) in bits) field = "FETCH_" field
            if (form == "CF_ALU" && field == "CF_INST") field = "CF_ALU_INST"
            if (field == "ALU_INST") field = form "_INST"
            if (fetch && field == format "_INST") field = "FETCH_INST"
            at = field in bits ? bits[field] : "0, 99"
            # ALU_ are the fields of the low word that OP2 and OP3 share, VTX_ those of word 0 that VTX_GPR and VTX_SEM do.
            forms = form == "ALU" ? "OP2 OP3" : form == "VTX" ? "VTX_GPR VTX_SEM" : form
            for (i = split(forms, of, " "); i; i--) printf "{ZLATOMRUK_%s, \"%s\", %s, %s},\n", of[i], $0, $0, at
        }'
}
