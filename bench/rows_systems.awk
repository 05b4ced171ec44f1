# Prints seeded systems of linear rows for `pec_bench rows`, or with smt=1 the same systems for z3 over the reals.
# awk -v seed=1 -v systems=200 -v variables=8 -v rows=24 [-v smt=1] -f rows_systems.awk
# A row has at most two variables, with coefficients from -2 to 2, like most premises on loops. Every second system has
# no point: the last row is the negation of a sum of others.

function random(below) {            # Lehmer's generator, exact in a double
    state = (state * 48271) % 2147483647
    return state % below
}

function make(s,    i, j, sum, place) {
    for (j = 0; j < variables; j++) hidden[j] = random(21) - 10
    for (i = 0; i < rows; i++) {
        sum = 0
        for (j = 0; j < variables; j++) a[i, j] = 0
        for (j = 0; j < 2; j++) a[i, random(variables)] = random(5) - 2
        for (j = 0; j < variables; j++) sum += a[i, j] * hidden[j]
        bound[i] = sum + random(10)
    }
    if (s % 2 == 0) return
    i = rows - 1
    bound[i] = -1
    for (j = 0; j < variables; j++) a[i, j] = 0
    for (place = 0; place < 3; place++) {
        bound[i] -= bound[place]
        for (j = 0; j < variables; j++) a[i, j] -= a[place, j]
    }
}

function write_rows(    i, j, line) {
    print "system " variables
    for (i = 0; i < rows; i++) {
        line = a[i, 0]
        for (j = 1; j < variables; j++) line = line " " a[i, j]
        print line " <= " bound[i]
    }
    print "end"
}

function number(z) { return z < 0 ? "(- " (-z) ")" : z "" }

function write_smt(    i, j, line) {
    print "(reset)\n(set-logic QF_LRA)"
    for (j = 0; j < variables; j++) print "(declare-const x" j " Real)"
    for (i = 0; i < rows; i++) {
        line = "0"
        for (j = 0; j < variables; j++) if (a[i, j] != 0) line = line " (* " number(a[i, j]) " x" j ")"
        print "(assert (<= (+ " line " 0) " number(bound[i]) "))"
    }
    print "(check-sat)"
}

BEGIN {
    state = seed
    for (s = 0; s < systems; s++) {
        make(s)
        if (smt) write_smt(); else write_rows()
    }
}
