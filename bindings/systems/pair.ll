; The three calls by which the proved code takes memory, over a heap in C (heap_take, heap_resize, heap_free). Two of
; them return a pair: 1 and the address, or 0 where there is no memory. C has no such result in two registers on every
; system, so this is in LLVM's language. Before it come the two lines of a target, by scripts/build/targets.py. After a change
; run tests/systems/systems, and ./check bindings.
declare ptr @heap_take(i64)
declare ptr @heap_resize(ptr, i64)
declare void @heap_free(ptr)

define internal { i64, i64 } @pair(ptr %place) {
  %address = ptrtoint ptr %place to i64
  %found = icmp ne i64 %address, 0
  %one = zext i1 %found to i64
  %half = insertvalue { i64, i64 } poison, i64 %one, 0
  %whole = insertvalue { i64, i64 } %half, i64 %address, 1
  ret { i64, i64 } %whole
}

define { i64, i64 } @rattle_alloc(i64 %bytes, i64 %align) {
  %place = call ptr @heap_take(i64 %bytes)
  %pair = call { i64, i64 } @pair(ptr %place)
  ret { i64, i64 } %pair
}

define { i64, i64 } @rattle_realloc(ptr %old, i64 %had, i64 %bytes, i64 %align) {
  %place = call ptr @heap_resize(ptr %old, i64 %bytes)
  %pair = call { i64, i64 } @pair(ptr %place)
  ret { i64, i64 } %pair
}

define void @rattle_dealloc(ptr %place) {
  call void @heap_free(ptr %place)
  ret void
}
