; A ring of four over a chain of 240 cards that doesn't close: quiet.
; In a chain no card can stand in two places of a ring, so that they are four cards needs no test.
(defrule ring
  ?w <- (x ?a ?b)
  ?x <- (x ?b ?c)
  ?y <- (x ?c ?d)
  ?z <- (x ?d ?a)
  =>
  (retract ?w ?x ?y ?z)
  (assert (done)))

(deffunction put-facts ()
  (loop-for-count (?i 1 240) do (assert (x ?i (+ ?i 1)))))

(measure 100 1)
(exit)
