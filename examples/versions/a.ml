module type S = sig val unit_cost : int end
