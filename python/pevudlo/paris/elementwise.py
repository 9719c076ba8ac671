"""Instructions as functions: what each processor does by itself. Each gives the text of its instruction."""

# Made by python/tools/make-modules: don't edit.

from pevudlo.lang.instructions import spell


def u_add(destination: str, left: str, right: str, length: int) -> str:
    """`u-add-3-1L D A B L`"""
    return spell("u-add-3-1L", destination, left, right, length)


def u_add_carry(destination: str, left: str, right: str, length: int) -> str:
    """`u-add-carry-3-1L D A B L`"""
    return spell("u-add-carry-3-1L", destination, left, right, length)


def u_subtract(destination: str, left: str, right: str, length: int) -> str:
    """`u-subtract-3-1L D A B L`"""
    return spell("u-subtract-3-1L", destination, left, right, length)


def s_add(destination: str, left: str, right: str, length: int) -> str:
    """`s-add-3-1L D A B L`"""
    return spell("s-add-3-1L", destination, left, right, length)


def s_subtract(destination: str, left: str, right: str, length: int) -> str:
    """`s-subtract-3-1L D A B L`"""
    return spell("s-subtract-3-1L", destination, left, right, length)


def u_multiply(destination: str, left: str, right: str, length: int) -> str:
    """`u-multiply-3-1L D A B L`"""
    return spell("u-multiply-3-1L", destination, left, right, length)


def s_multiply(destination: str, left: str, right: str, length: int) -> str:
    """`s-multiply-3-1L D A B L`"""
    return spell("s-multiply-3-1L", destination, left, right, length)


def u_truncate(destination: str, left: str, right: str, length: int) -> str:
    """`u-truncate-3-1L D A B L`"""
    return spell("u-truncate-3-1L", destination, left, right, length)


def u_rem(destination: str, left: str, right: str, length: int) -> str:
    """`u-rem-3-1L D A B L`"""
    return spell("u-rem-3-1L", destination, left, right, length)


def u_max(destination: str, left: str, right: str, length: int) -> str:
    """`u-max-3-1L D A B L`"""
    return spell("u-max-3-1L", destination, left, right, length)


def u_min(destination: str, left: str, right: str, length: int) -> str:
    """`u-min-3-1L D A B L`"""
    return spell("u-min-3-1L", destination, left, right, length)


def s_max(destination: str, left: str, right: str, length: int) -> str:
    """`s-max-3-1L D A B L`"""
    return spell("s-max-3-1L", destination, left, right, length)


def s_min(destination: str, left: str, right: str, length: int) -> str:
    """`s-min-3-1L D A B L`"""
    return spell("s-min-3-1L", destination, left, right, length)


def logand(destination: str, left: str, right: str, length: int) -> str:
    """`logand-3-1L D A B L`"""
    return spell("logand-3-1L", destination, left, right, length)


def logior(destination: str, left: str, right: str, length: int) -> str:
    """`logior-3-1L D A B L`"""
    return spell("logior-3-1L", destination, left, right, length)


def logxor(destination: str, left: str, right: str, length: int) -> str:
    """`logxor-3-1L D A B L`"""
    return spell("logxor-3-1L", destination, left, right, length)


def s_negate(destination: str, source: str, length: int) -> str:
    """`s-negate-2-1L D A L`"""
    return spell("s-negate-2-1L", destination, source, length)


def lognot(destination: str, source: str, length: int) -> str:
    """`lognot-2-1L D A L`"""
    return spell("lognot-2-1L", destination, source, length)


def u_move(destination: str, source: str, length: int) -> str:
    """`u-move-1L D A L`"""
    return spell("u-move-1L", destination, source, length)


def u_move_always(destination: str, source: str, length: int) -> str:
    """`u-move-always-1L D A L`"""
    return spell("u-move-always-1L", destination, source, length)


def u_move_constant(destination: str, constant: int, length: int) -> str:
    """`u-move-constant-1L D K L`"""
    return spell("u-move-constant-1L", destination, constant, length)


def u_move_2l(destination: str, source: str, length: int, source_length: int) -> str:
    """`u-move-2L D A L M`"""
    return spell("u-move-2L", destination, source, length, source_length)


def s_move_2l(destination: str, source: str, length: int, source_length: int) -> str:
    """`s-move-2L D A L M`"""
    return spell("s-move-2L", destination, source, length, source_length)


def u_eq(left: str, right: str, length: int) -> str:
    """`u-eq-1L A B L`"""
    return spell("u-eq-1L", left, right, length)


def u_ne(left: str, right: str, length: int) -> str:
    """`u-ne-1L A B L`"""
    return spell("u-ne-1L", left, right, length)


def u_lt(left: str, right: str, length: int) -> str:
    """`u-lt-1L A B L`"""
    return spell("u-lt-1L", left, right, length)


def u_le(left: str, right: str, length: int) -> str:
    """`u-le-1L A B L`"""
    return spell("u-le-1L", left, right, length)


def u_gt(left: str, right: str, length: int) -> str:
    """`u-gt-1L A B L`"""
    return spell("u-gt-1L", left, right, length)


def u_ge(left: str, right: str, length: int) -> str:
    """`u-ge-1L A B L`"""
    return spell("u-ge-1L", left, right, length)


def s_lt(left: str, right: str, length: int) -> str:
    """`s-lt-1L A B L`"""
    return spell("s-lt-1L", left, right, length)


def s_le(left: str, right: str, length: int) -> str:
    """`s-le-1L A B L`"""
    return spell("s-le-1L", left, right, length)


def s_gt(left: str, right: str, length: int) -> str:
    """`s-gt-1L A B L`"""
    return spell("s-gt-1L", left, right, length)


def s_ge(left: str, right: str, length: int) -> str:
    """`s-ge-1L A B L`"""
    return spell("s-ge-1L", left, right, length)


def my_news_coordinate(destination: str, axis: int, length: int) -> str:
    """`my-news-coordinate-1L D X L`"""
    return spell("my-news-coordinate-1L", destination, axis, length)


def my_send_address(destination: str, length: int) -> str:
    """`my-send-address-1L D L`"""
    return spell("my-send-address-1L", destination, length)


def set_test(set_name: str) -> str:
    """`set-test S`"""
    return spell("set-test", set_name)


def clear_test(set_name: str) -> str:
    """`clear-test S`"""
    return spell("clear-test", set_name)


def load_test(bit: str) -> str:
    """`load-test F`"""
    return spell("load-test", bit)


def store_test(bit: str) -> str:
    """`store-test F`"""
    return spell("store-test", bit)


def set_context(set_name: str) -> str:
    """`set-context S`"""
    return spell("set-context", set_name)


def clear_context(set_name: str) -> str:
    """`clear-context S`"""
    return spell("clear-context", set_name)


def invert_context(set_name: str) -> str:
    """`invert-context S`"""
    return spell("invert-context", set_name)


def logand_context_with_test(set_name: str) -> str:
    """`logand-context-with-test S`"""
    return spell("logand-context-with-test", set_name)


def load_context(bit: str) -> str:
    """`load-context F`"""
    return spell("load-context", bit)


def logand_context(bit: str) -> str:
    """`logand-context F`"""
    return spell("logand-context", bit)


def logior_context(bit: str) -> str:
    """`logior-context F`"""
    return spell("logior-context", bit)


def store_context(bit: str) -> str:
    """`store-context F`"""
    return spell("store-context", bit)
