(define (problem MatchCellar-13)
 (:domain MatchCellar)
 (:objects
    match0 match1 - match
    fuse0 fuse1 fuse2 fuse3 - fuse)
 (:init
  (handfree)
  (unused match0)
  (unused match1))
 (:goal (and
   (mended fuse0)
   (mended fuse1)
   (mended fuse2)
   (mended fuse3)))
 (:metric minimize (total-time))
)
