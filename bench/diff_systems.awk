# Prints seeded systems of rows for `pec_bench diff`, or with smt=1 the same systems for z3.
# awk -v seed=1 -v systems=1000 -v variables=200 -v rows=2000 [-v smt=1] -f diff_systems.awk
# Every second system has no point: the rows of a random cycle are lowered until they add up to -1.

function random(below) {            # Lehmer's generator, exact in a double
    state = (state * 48271) % 2147483647
    return state % below
}

function make(s,    i, k, size, sum) {
    for (i = 0; i < variables; i++) hidden[i] = random(2001) - 1000
    for (i = 0; i < rows; i++) {
        left[i] = random(variables)
        right[i] = random(variables)
        by[i] = hidden[left[i]] - hidden[right[i]] + random(50)
    }
    if (s % 2 == 0) return
    size = 3 + random(18)
    at = random(variables)
    first = at
    sum = 0
    for (k = 0; k < size; k++) {
        i = int(k * rows / size)
        left[i] = at
        at = (k == size - 1) ? first : random(variables)
        right[i] = at
        by[i] = hidden[left[i]] - hidden[right[i]]
    }
    by[int((size - 1) * rows / size)] -= 1
}

function write_rows(s,    i) {
    print "system " variables
    for (i = 0; i < rows; i++) print left[i], right[i], by[i]
    print "end"
}

function number(z) { return z < 0 ? "(- " (-z) ")" : z "" }

function write_smt(s,    i) {
    print "(reset)\n(set-logic QF_IDL)"
    for (i = 0; i < variables; i++) print "(declare-const x" i " Int)"
    for (i = 0; i < rows; i++) print "(assert (<= (- x" left[i] " x" right[i] ") " number(by[i]) "))"
    print "(check-sat)"
}

BEGIN {
    state = seed
    for (s = 0; s < systems; s++) {
        make(s)
        if (smt) write_smt(s); else write_rows(s)
    }
}
