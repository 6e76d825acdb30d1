# The sorts and numbers of arguments of a book's terms.

. tests/host/raw_books.sh

bad_sorts() { # name plan complaint
    bad "$1" "$2" --raw-sorts "$3"
}

declared='(type T) (type |my type|) (constant x Int) (constant b Bool) (constant t T) (constant u |my type|)
    (function f (Int Bool T) T) (function p () Bool) (function i (Int) Int)'

# Terms that are good, one a line. An operator that is not known takes anything, and what it gives goes anywhere.
while read -r term; do
    good "$term" "$declared (term q $term)"
done <<'TERMS'
(= x x)
(= b b b)
(= t t)
(= u u u u)
(distinct x x)
(distinct t t t)
(=> b b)
(=> b b b)
(and b b)
(and b b b b)
(or b b)
(or b b b)
(xor b b)
(xor b b b)
(not b)
(< x x)
(< x x x)
(<= x x)
(<= x x x)
(> x x)
(> x x x)
(>= x x)
(>= x x x)
(+ x x)
(+ x x x)
(* x x)
(* x x x)
(div x x)
(div x x x)
(- x)
(- x x)
(- x x x)
(mod x x)
(abs x)
(builtin "|<=|" x x)
(and (= x 1) (distinct x 1) (=> b b) (and b b) (or b b) (xor b b) (not b) (< x 1) (<= x 1) (> x 1) (>= x 1) true p (exists () b))
(+ (+ x x) (* x x) (div x x) (- x) (mod x x) (abs x) 5 -5 %tag (i x))
(= (f x b t) t (literal "red" T))
(= p b)
p
(i (i x))
(ite b x x)
(ite b t (f 1 true t))
(= (literal "one" Int) x)
(= (literal "yes" Bool) b)
(let ((x 5)) (= x 5))
(+ (let ((b true)) 5) x)
(forall ((x Int)) (= x x))
(forall ((x Int)) (! (= x x) :pattern (x) :pattern (t u (+ x 1))))
(exists ((t T) (x Int)) b)
(and (forall ((t T)) b) b)
(builtin "select")
(builtin "select" x b t)
(builtin "|and|" b b)
(= x (builtin "y") 5)
(= (builtin "y") (builtin "z"))
(= (builtin "y") x (builtin "z"))
(and (builtin "y") b)
(+ (builtin "y" b) x)
(not (builtin "y"))
(i (builtin "y"))
(f (builtin "y") (builtin "z") (builtin "w"))
(ite (builtin "y") (builtin "z") (builtin "w"))
(+ (ite b (builtin "z") x) x)
(+ (ite b x (builtin "z")) x)
(and (ite b (builtin "z") (builtin "z")) b)
(+ (ite b (builtin "z") (builtin "z")) x)
(let ((x (builtin "y"))) (builtin "z"))
(+ (let ((x 1)) (builtin "z")) x)
(forall ((x Int)) (builtin "z"))
TERMS

# Terms that are not, each with what is said of it.
while IFS='@' read -r term complaint; do
    bad_sorts "$term" "$declared (term q $term)" "$complaint"
done <<'TERMS'
(= x)@term 1: = takes 2 or more arguments, found 1
=@term 0: = takes 2 or more arguments, found 0
(= x b)@term 2: argument 2 of = must be Int, found Bool
(= b b x)@term 3: argument 3 of = must be Bool, found Int
(= t x)@term 2: argument 2 of = must be T, found Int
(= t u)@term 2: argument 2 of = must be T, found my type
(= u t)@term 2: argument 2 of = must be my type, found T
(= (builtin "y") x (builtin "z") b)@term 4: argument 4 of = must be Int, found Bool
(distinct x)@term 1: distinct takes 2 or more arguments, found 1
(distinct x x b)@term 3: argument 3 of distinct must be Int, found Bool
(=> t t)@term 2: argument 1 of => must be Bool, found T
(=> b)@term 1: => takes 2 or more arguments, found 1
(=> b x)@term 2: argument 2 of => must be Bool, found Int
(and t t)@term 2: argument 1 of and must be Bool, found T
(and b)@term 1: and takes 2 or more arguments, found 1
and@term 0: and takes 2 or more arguments, found 0
(and b t)@term 2: argument 2 of and must be Bool, found T
(or t t)@term 2: argument 1 of or must be Bool, found T
(or b)@term 1: or takes 2 or more arguments, found 1
(or x b)@term 2: argument 1 of or must be Bool, found Int
(xor t t)@term 2: argument 1 of xor must be Bool, found T
(xor b)@term 1: xor takes 2 or more arguments, found 1
(xor b b x)@term 3: argument 3 of xor must be Bool, found Int
not@term 0: not takes 1 argument, found 0
(not b b)@term 2: not takes 1 argument, found 2
(not x)@term 1: argument 1 of not must be Bool, found Int
(< b b)@term 2: argument 1 of < must be Int, found Bool
(< x)@term 1: < takes 2 or more arguments, found 1
(< b x)@term 2: argument 1 of < must be Int, found Bool
(<= b b)@term 2: argument 1 of <= must be Int, found Bool
(<= x)@term 1: <= takes 2 or more arguments, found 1
(<= (+ x x 3))@term 4: <= takes 2 or more arguments, found 1
(<= x b)@term 2: argument 2 of <= must be Int, found Bool
(> b b)@term 2: argument 1 of > must be Int, found Bool
(> x)@term 1: > takes 2 or more arguments, found 1
(> x t)@term 2: argument 2 of > must be Int, found T
(>= b b)@term 2: argument 1 of >= must be Int, found Bool
(>= x)@term 1: >= takes 2 or more arguments, found 1
(>= x x b)@term 3: argument 3 of >= must be Int, found Bool
(+ b b)@term 2: argument 1 of + must be Int, found Bool
(+ x)@term 1: + takes 2 or more arguments, found 1
(+ x b)@term 2: argument 2 of + must be Int, found Bool
(* b b)@term 2: argument 1 of * must be Int, found Bool
(* x)@term 1: * takes 2 or more arguments, found 1
(* true x)@term 2: argument 1 of * must be Int, found Bool
(div b b)@term 2: argument 1 of div must be Int, found Bool
(div x)@term 1: div takes 2 or more arguments, found 1
(div x x b)@term 3: argument 3 of div must be Int, found Bool
-@term 0: - takes 1 or more arguments, found 0
(- b)@term 1: argument 1 of - must be Int, found Bool
(mod b b)@term 2: argument 1 of mod must be Int, found Bool
(mod x)@term 1: mod takes 2 arguments, found 1
(mod x x x)@term 3: mod takes 2 arguments, found 3
(mod x b)@term 2: argument 2 of mod must be Int, found Bool
abs@term 0: abs takes 1 argument, found 0
(abs x x)@term 2: abs takes 1 argument, found 2
(abs b)@term 1: argument 1 of abs must be Int, found Bool
(builtin "|<=|" x)@term 1: |<=| takes 2 or more arguments, found 1
(builtin "|and|" x x)@term 2: argument 1 of |and| must be Bool, found Int
(p x)@term 1: p takes 0 arguments, found 1
i@term 0: i takes 1 argument, found 0
(i x x)@term 2: i takes 1 argument, found 2
(i b)@term 1: argument 1 of i must be Int, found Bool
(f x b)@term 2: f takes 3 arguments, found 2
(f x t b)@term 3: argument 2 of f must be Bool, found T
(f x b x)@term 3: argument 3 of f must be T, found Int
(= (f x b t) x)@term 5: argument 2 of = must be T, found Int
(ite x x x)@term 3: the condition of ite must be Bool, found Int
(ite b x b)@term 3: the second branch of ite must be Int, found Bool
(ite b u t)@term 3: the second branch of ite must be my type, found T
(+ (ite b b b) x)@term 5: argument 1 of + must be Int, found Bool
(and (ite b (builtin "z") x) b)@term 5: argument 1 of and must be Bool, found Int
(and (ite b x (builtin "z")) b)@term 5: argument 1 of and must be Bool, found Int
(let ((x b)) b)@term 2: the value in let must be Int, found Bool
(let ((t u)) b)@term 2: the value in let must be T, found my type
(+ (let ((x 1)) b) x)@term 4: argument 1 of + must be Int, found Bool
(forall ((x Int)) x)@term 1: the body of forall must be Bool, found Int
(exists ((x Int)) t)@term 1: the body of exists must be Bool, found T
(forall () 5)@term 1: the body of forall must be Bool, found Int
(+ (forall ((x Int)) b) x)@term 3: argument 1 of + must be Int, found Bool
(forall ((x Int)) (! b :pattern ((+ x b))))@term 3: argument 2 of + must be Int, found Bool
(literal "%tag" T)@term 0: the type of %tag must be Int, found T
(= b (literal "%tag" Bool))@term 1: the type of %tag must be Int, found Bool
(and b %tag)@term 2: argument 2 of and must be Bool, found Int
(= (literal "one" Int) b)@term 2: argument 2 of = must be Int, found Bool
(and b 5)@term 2: argument 2 of and must be Bool, found Int
(+ x true)@term 2: argument 2 of + must be Int, found Bool
(builtin "y" (+ x b))@term 2: argument 2 of + must be Int, found Bool
TERMS

# What nodes and axioms say must be true or false; an axiom may have no term.
good 'nodes and axioms' "$declared (axiom a b) (axiom none) (axiom any (builtin \"y\")) (node n root b) (node m n (builtin \"z\"))"
bad_sorts 'a node of a number' "$declared (node n root b) (node m n 5)" 'node 2: its term 1 must be Bool, found Int'
bad_sorts 'an axiom of a number' "$declared (node n root 5) (axiom none) (axiom a t)" 'axiom 1: its term 1 must be Bool, found T'
bad_sorts 'terms come first' "$declared (node n root 5) (term q (and b))" 'term 2: and takes 2 or more arguments, found 1'
bad_sorts 'the first of two' "$declared (term q (and b)) (term r (or b))" 'term 1: and takes 2'

# Names come before sorts, and each flag is for its own.
raw_book 'both' '(constant c Int :name "-5") (term q (and c))'
run check "$raw"
expect 'bad names and sorts' 2 'looks like a negative number'
expect_not 'bad names and sorts' 'takes 2'
run check "$raw" --raw-sorts
expect 'bad names and sorts with --raw-sorts' 2 'looks like a negative number'
expect_not 'bad names and sorts with --raw-sorts' 'warning'
run check --raw-names "$raw"
expect 'bad names and sorts with --raw-names' 2 "$raw: warning: constant 0 is called" "$raw: term 1: and takes 2"
run check --raw-sorts "$raw" --raw-names
expect 'bad names and sorts with both flags' 0 "$raw: warning: constant 0 is called" "$raw: warning: term 1: and takes 2" 'a good book'
