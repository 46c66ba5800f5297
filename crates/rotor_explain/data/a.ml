module type S = sig val f : int end
