; The hat book on 100 orders, 100 free machines and 100 notices: 100 firings, then quiet.
(defrule hat
  ?order <- (order ?style ?hats)
  ?free <- (free ?machine)
  (suits ?machine ?style)
  =>
  (retract ?order ?free)
  (assert (start ?machine ?style ?hats)))

(deffunction put-facts ()
  (loop-for-count (?i 1 100) do (assert (order ?i 40)))
  (loop-for-count (?i 1 100) do (assert (free ?i)))
  (loop-for-count (?i 1 100) do (assert (suits ?i ?i))))

(measure 100 1000)
(exit)
