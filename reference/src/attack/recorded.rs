//! Answers that z3 4.8.12 and cvc5 1.0.3 have given, as they wrote them.

/// The one that a liar would like best.
pub const UNSAT: &[u8] = b"unsat\n";

pub const RECORDED: [&[u8]; 17] = [
    UNSAT,
    b"sat\n",
    b"unknown\n",
    b"unsupported\n",
    b"success\n",
    // z3's model of the far branch, and cvc5's.
    b"(\n  (define-fun box_2 () Int\n    5)\n  (define-fun box_3 () Int\n    1)\n  (define-fun box_1 () Int\n    4)\n)\n",
    b"(\n(define-fun box_1 () Int 4)\n(define-fun box_2 () Int 5)\n(define-fun box_3 () Int 1)\n)\n",
    b"(\n)\n",
    // Names with quotes, parentheses and replies in them. z3 leaves the bars
    // of a sort away.
    b"(\n  (define-fun |c)d| () Int\n    3)\n  (define-fun |a \"b| () T \"x\"\n    |T \"x\"!val!0|)\n)\n",
    b"(\n  (define-fun b () T)) unsat ((\n    |T)) unsat ((!val!0|)\n)\n",
    b"(\n; cardinality of |T \"x\"| is 1\n\
      ; rep: (as @|T \"x\"|_0 |T \"x\"|)\n(define-fun |a \"b| () |T \"x\"| (as @|T \"x\"|_0 |T \"x\"|))\n)\n",
    b"(\n  (define-fun |unsat sat| () Int\n    (- 2))\n)\n",
    // Errors of both, one with a quote in it.
    b"(error \"line 1 column 12: unknown constant box_9\")\n",
    b"(error \"line 2 column 8: unknown constant a \\\"b\")\n",
    b"(error \"line 3 column 10: model is not available\")\n",
    b"(error \"Parse Error: Symbol box_9 is not declared.\n\n  (assert (= box_9 1))\n             ^\n\")\n",
    b"(error \"Cannot get model unless after a SAT or UNKNOWN response.\")\n",
];
