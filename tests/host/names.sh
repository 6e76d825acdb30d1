# The names of a book: those of operators are one token of SMT-LIB each, and each name is one thing's.

. tests/host/raw_books.sh

bad_name() { # name plan complaint
    bad "$1" "$2" --raw-names "$3"
}

# A name given to each sort of record, and how that record is called in complaints; the letters are those of a plan's string.
as_type() { plan="(type T :name \"$1\")" who='type 2'; }
as_constant() { plan="(constant other Int) (constant c Int :name \"$1\")" who='constant 1'; }
as_function() { plan="(function another () Int) (function f (Int) Int :name \"$1\")" who='function 1'; }
as_operator() { plan="(term t (builtin \"$1\"))" who='the operator of term 0'; }

bad_as() { # role letters fault
    "as_$1" "$2"
    bad_name "$1 $2" "$plan" "$who is called \"$2\", which $3"
}

good_as() { # role letters
    "as_$1" "$2"
    good "$1 $2" "$plan"
}

good_everywhere() { # letters
    for role in type constant function operator; do
        good_as "$role" "$1"
    done
}

# In types, constants and functions a fault, in operators none.
bad_but_in_operators() { # letters fault
    for role in type constant function; do
        bad_as "$role" "$@"
    done
    good_as operator "$1"
}

# The other way round: what the solver gets as a symbol may be anything.
bad_in_operators() { # letters fault
    for role in type constant function; do
        good_as "$role" "$1"
    done
    bad_as operator "$@"
}

# Symbols, and what is none.
for letters in x '~!@$%^&*_-+=<>.?/' 'aZ09' '|a b|' '||' '|;(|' '|a:b|' '|1x|' '|#|' '|1.|' '|.5|' '|1.2.3|' '|5a|' '--5' '-a' '|- 5|' '+5' '-.5' '|-1.|' '|x1|'; do
    good_everywhere "$letters"
done
for letters in ' ' 'a b' '1x' 'a(b' 'a)b' ':a' 'a:b' '#' '#a' 'a;b' "a'b" 'a,b' 'a[b' 'a`b' 'a{b' 'x ' ' x' '5 5' '1.' '.5 ' '1.2.3' '#x' '#xg' '#b' '#b2' '007' '00' '01.5' '- 5'; do
    bad_in_operators "$letters" 'is not one token of SMT-LIB'
done
bad_name 'a quote' '(term t (builtin "a""b"))' 'the operator of term 0 is called "a"b", which is not one token of SMT-LIB'
for letters in '' '|a' 'a|' '|' '|||' '|a|b|' '|a\|' '|\|' 'a\'; do
    bad_as operator "$letters" 'is not one token of SMT-LIB'
done

# What looks like a number: of a negative one the library cannot tell a solver that it is none.
for letters in -5 -0 -007 '|-5|' '|-1.50|' '-1.5'; do
    bad_but_in_operators "$letters" 'looks like a negative number'
done
for letters in 0 5 1234567890123456789012345 0.0 1.50 10.05 '#x0123456789abcdefABCDEF' '#b10' '|5|' '|007|' '|1.5|' '|#x|' '|#xyz|' '|#b2|' '|#b|'; do
    good_everywhere "$letters"
done

# Reserved words, with bars and without: each in a record of another sort, and in an operator.
roles='type constant function'
for word in ! _ as BINARY DECIMAL exists HEXADECIMAL forall let match NUMERAL par STRING assert check-sat check-sat-assuming \
    declare-const declare-datatype declare-datatypes declare-fun declare-sort define-fun define-fun-rec define-funs-rec define-sort \
    echo exit get-assertions get-assignment get-info get-model get-option get-proof get-unsat-assumptions get-unsat-core get-value \
    pop push reset reset-assertions set-info set-logic set-option; do
    role=${roles%% *}
    roles="${roles#* } $role"
    for letters in "$word" "|$word|"; do
        good_as "$role" "$letters"
        bad_as operator "$letters" 'is a reserved word of SMT-LIB'
    done
done
bad_in_operators '|push|' 'is a reserved word of SMT-LIB'
bad_in_operators let 'is a reserved word of SMT-LIB'

# Words and operators that mean something already: for constants and functions a fault, in operators and types none.
for word in true false ite = '=>' and or not xor distinct '<' '<=' '>' '>=' + - '*' div mod abs; do
    bad_as constant "$word" 'has a meaning of its own in SMT-LIB'
    bad_as function "|$word|" 'has a meaning of its own in SMT-LIB'
    good_as type "$word"
done
for letters in Bool '|Bool|' Int '|Int|'; do
    bad_as type "$letters" 'has a meaning of its own in SMT-LIB'
    good_as constant "$letters"
done

# Literals may hold anything that a book can; the group `symbols` has those that cannot be in one.
for literal in '' ' ' red 'a b' '5' 'a:b' ';' '(' '""' true let '#x' '-5'; do
    good "literal $literal" "(type Shade) (term t (literal \"$literal\" Shade)) (term u (literal \"$literal\" Shade)) (term v (literal \"$literal\" Int))"
done
good 'a literal of a type with a blank' '(type |thread kind|) (term t (literal "wool" |thread kind|))'
good 'a type with bars of its own' '(type T :name "|thread kind|") (constant t T)'
good 'a tag is a number' '(type T :name "|thread kind|") (constant |%tag:int| Int) (constant c Int :name "%tag") (term t (= %tag %tag))'

# Names that two have, bars not counted.
bad_name 'two types' '(type S) (type T :name "|U|") (type U)' 'type 4 and type 3 are both called U'
bad_name 'two constants' '(constant a Int) (constant x Int) (constant b Bool :name "|x|")' 'constant 2 and constant 1 are both called x'
bad_name 'two constants with a blank' '(constant |red 40| Int) (constant b Bool :name "|red 40|")' 'constant 1 and constant 0 are both called red 40'
bad_name 'a reserved word and itself' '(constant c Int :name "let") (function f () Int :name "|let|")' 'function 0 and constant 0 are both called let'
bad_name 'two types without letters' '(type S :name "||") (type T :name "||")' 'type 3 and type 2 are both called'
bad_name 'two functions' '(function f () Int) (function g (Int) Int :name "f")' 'function 1 and function 0 are both called f'
bad_name 'a function and a constant' '(constant x Int) (function f () Int) (function g () Int :name "|x|")' \
    'function 1 and constant 0 are both called x'
bad_name 'a literal and a constant' '(type Shade) (constant |red:Shade| Shade) (term t true) (term u (literal "red" Shade))' \
    'the literal of term 1 and constant 0 are both called red:Shade'
bad_name 'a literal and a bound constant' \
    '(type Shade) (constant |red:Shade| Shade) (node n root (forall ((|red:Shade| Shade)) (= |red:Shade| (literal "red" Shade))))' \
    'the literal of term 1 and constant 0 are both called red:Shade'
bad_name 'a literal and a function' '(function |a:b:int| () Int) (term u (literal "a:b" Int))' \
    'the literal of term 0 and function 0 are both called a:b:int'
bad_name 'an empty literal and a constant' '(constant |:bool| Int) (term u (literal "" Bool))' \
    'the literal of term 0 and constant 0 are both called :bool'
bad_name 'an operator and a constant' '(constant x Int) (constant select Int) (term t (builtin "|select|" x))' \
    'the operator of term 1 and constant 1 are both called select'
bad_name 'an operator and a function' '(constant x Int) (function |select| () Int) (term t (builtin "select" x))' \
    'the operator of term 1 and function 0 are both called select'
bad_name 'an operator and a literal' '(type Shade) (term t (literal "red" Shade)) (term u (builtin "|red:Shade|"))' \
    'the operator of term 1 and the literal of term 0 are both called red:Shade'
bad_name 'a literal and an operator' '(type Shade) (term u (builtin "|red:Shade|")) (term t (literal "red" Shade))' \
    'the literal of term 1 and the operator of term 0 are both called red:Shade'
bad_name 'literals of Int and int' '(type int) (term t (literal "x" Int)) (term u (literal "x" int))' \
    'the literal of term 1 and the literal of term 0 are both called x:int'
bad_name 'literals of bool and Bool' '(type bool) (term t (literal "x" bool)) (term s (literal "y" Bool)) (term u (literal "x" Bool))' \
    'the literal of term 2 and the literal of term 0 are both called x:bool'
bad_name 'literals whose colons stand elsewhere' '(type |b:c|) (type c) (term t (literal "a" |b:c|)) (term u (literal "a:b" c))' \
    'the literal of term 1 and the literal of term 0 are both called a:b:c'
bad_name 'the same the other way round' '(type |b:c|) (type c) (term t (literal "a:b" c)) (term u (literal "a" |b:c|))' \
    'the literal of term 1 and the literal of term 0 are both called a:b:c'
bad_name 'literals of which one has no name' '(type |:c|) (type c) (term t (literal "" |:c|)) (term u (literal ":" c))' \
    'the literal of term 1 and the literal of term 0 are both called ::c'
bad_name 'a literal of a built-in type whose colon stands elsewhere' '(type |b:int|) (term t (literal "a" |b:int|)) (term u (literal "a:b" Int))' \
    'the literal of term 1 and the literal of term 0 are both called a:b:int'
good 'literals that are nearly the same' '(type |b:c|) (type |b:d|) (type c) (type |c:c|)
    (term t (literal "a" |b:c|)) (term u (literal "a:" c)) (term v (literal "a:bb" c)) (term w (literal "a" |b:d|)) (term x (literal "b:b" c))
    (term y (literal "a:b" |c:c|)) (term z (literal "a:c" c))'
good 'literals that differ' \
    '(type int) (type S) (type T) (term t (literal "x" Int)) (term u (literal "y" int)) (term v (literal "x" S)) (term w (literal "x" T))'
good 'names that are nearly the same' \
    '(type S) (type T) (constant |red:S| S) (constant |red:| S) (constant |:S| S) (function |red:S:S| () S)
    (term t (literal "red:" S)) (term u (literal "rid" S)) (term v (literal "red" T))'
good 'operators over and over' '(constant x Int) (term t (and (= x 1) (= x 2) (builtin "|=|" x x) (builtin "and" (= x 1) (= x 3))))'
good 'types have a space of their own' '(type x) (constant x x) (function f (x) x :name "T") (type T) (term t (builtin "y" x)) (type y)'
good 'traces may be anything' '(constant x Int) (node n root (= x 1) :trace "|a b") (node m n (= x 1) :trace "x")'

# The first complaint: types, constants, functions, terms; of one record its form before what others are called.
bad_name 'types before constants' '(constant c Int :name "-1") (type T :name "-2")' 'type 2 is called "-2"'
bad_name 'constants before functions' '(function f () Int :name "-1") (constant c Int :name "-2")' 'constant 0 is called "-2"'
bad_name 'functions before terms' '(term t (builtin "a b")) (function f () Int :name "-2")' 'function 0 is called "-2"'
bad_name 'terms by number' '(term t (builtin "a b")) (term u (builtin "c d"))' 'the operator of term 0 is called "a b"'
bad_name 'the lowest of several' '(constant x Int) (function f () Int) (term t (builtin "f")) (term u (builtin "x"))' \
    'the operator of term 0 and function 0 are both called f'

# A long name is cut short.
long=$(head -c 100 /dev/zero | tr '\0' 'x')
bad_name 'a long name' "(term t (builtin \"$long \"))" "the operator of term 0 is called \"$(printf '%.60s' "$long")...\", which is not one token of SMT-LIB"
