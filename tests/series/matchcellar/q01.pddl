(define (problem MatchCellar-11)
 (:domain MatchCellar)
 (:objects
    match0 - match
    fuse0 - fuse)
 (:init
  (handfree)
  (unused match0))
 (:goal (and
   (mended fuse0)))
 (:metric minimize (total-time))
)
