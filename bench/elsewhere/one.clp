; c(N) makes c(N) on 240 cards: 500 firings.
(defrule again
  ?card <- (c ?n)
  =>
  (retract ?card)
  (assert (c ?n)))

(deffunction put-facts ()
  (loop-for-count (?i 1 240) do (assert (c ?i))))

(measure 300 500)
(exit)
