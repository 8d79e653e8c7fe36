# Prints a script that registers counters whose keys all have one hash (FNV-1a of 64 bits), for the program's word `drive`:
#
#     awk -v count=100000 -f tools/keys_of_one_hash.awk | metrics_drive drive
#
# With -v apart=1 as many names as long are printed whose hashes differ. With -v labels=1 all counters have one name, and their labels one
# hash. There are at most 131,072 of them.
#
# A name is `c_`, and the value of a label `yy`, with seventeen blocks of nine letters behind it. For each block there are two texts that take
# the hash to the same state, so each choice gives the same hash. The two differ by small numbers d1 .. d9 in the last byte of the states
# before their nine steps, where d1 P^9 + d2 P^8 + .. + d9 P = 0 modulo 2^64 and P = 1099511628211 is the prime of the hash. Such numbers are
# a short vector of a lattice of nine dimensions. The texts of a block hang on the last byte of the state before it alone, and so they come
# again.
BEGIN {
    split("h0zy_ri1r f00d2c_ar y0y_2f1ha zayy_ri1r", first)
    split("vd305_0o8 xdu50d838 _l2l0ch67 d5405_0o8", second)
    print "round 0"
    for (number = 0; number < count; number++) {
        name = labels ? "yy" : "c_"
        rest = number
        for (block = 0; block < 17; block++) {
            kind = labels ? 2 + block % 3 : block == 0 ? 1 : 2 + (block - 1) % 3
            bit = rest % 2
            rest = (rest - bit) / 2
            if (apart)
                name = name substr(first[kind], 1, 8) (bit ? "y" : "z")
            else
                name = name (bit ? second[kind] : first[kind])
        }
        print "register counter " (labels ? "\"c\" \"k\"=" : "") "\"" name "\""
    }
}
