; Times a case: facts asserted and rules run, so many times; prints microseconds a run.
; Matching is done as facts are asserted, so asserting them counts.
(deffunction put-facts ()) ; each case has its own
(deffunction measure (?times ?limit)
  (bind ?start (time))
  (loop-for-count ?times do (reset) (put-facts) (run ?limit))
  (printout t (integer (/ (* 1000000 (- (time) ?start)) ?times)) crlf))
