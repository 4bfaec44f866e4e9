"""Named inputs, each with the line that a reader must print for it, worked out by hand from the rules."""

ARITH = "arith,word,0,0\n"
PLAY = "play,2,1,64\n"
HEAD = ARITH + PLAY
HEAD_LINES = 2

MOST_BYTES = 32768
LIMITS = {"type": 64, "var": 64, "method": 64, "global": 16, "term": 1024}


def lines(*rows):
    """The rows as text, each with its line feed."""
    return "".join(row + "\n" for row in rows)


def encoded(text):
    """The bytes of a text in which each character stands for the byte of that number."""
    return text.encode("latin-1")


def refused(number, line):
    return "refused,%d,%d" % (number, line)


def mounted(types=0, variables=0, methods=0, globals_=0, terms=0):
    return "mounted,%d,%d,%d,%d,%d" % (types, variables, methods, globals_, terms)


# Example libraries

CALLBACK_ASSERTS_FLAG = [
    "type,0,unit", "type,1,int", "type,2,fun,0,0", "var,0,0", "var,1,0",
    "method,0,abstract,2", "method,1,public,2,10", "global,0,1,0",
    "term,0,num,1", "term,1,get,0", "term,2,assert,1", "term,3,num,0", "term,4,set,0,3", "term,5,unit",
    "term,6,meth,0", "term,7,app,6,5", "term,8,let,1,4,7", "term,9,let,1,2,8", "term,10,lam,0,9",
]

ADD_THEN_SUBTRACT_ONE = [
    "type,0,unit", "type,1,int", "type,2,fun,1,0", "var,0,1", "method,0,public,2,6",
    "term,0,var,0", "term,1,num,1", "term,2,op,add,0,1", "term,3,op,sub,2,1", "term,4,op,equal,3,0",
    "term,5,assert,4", "term,6,lam,0,5",
]

# One row of each form, in order. It reads, and every term has a listed type; method 1, at line 9 of the input, has a term
# that is not there.
EVERY_FORM = [
    "type,0,unit", "type,1,int", "type,2,pair,0,1", "type,3,fun,2,1", "var,0,2",
    "method,0,abstract,3", "method,1,public,3,65535", "method,2,private,3,14", "global,0,1,1",
    "term,0,unit", "term,1,num,-5", "term,2,var,0", "term,3,meth,2", "term,4,get,0", "term,5,lam,0,1",
    "term,6,set,0,1", "term,7,op,less,1,4", "term,8,pair,0,1", "term,9,fst,2", "term,10,snd,8",
    "term,11,app,3,2", "term,12,if,1,4,7", "term,13,let,0,8,2", "term,14,assert,12",
    "term,15,op,add,1,1", "term,16,op,sub,1,1", "term,17,op,mul,1,1", "term,18,op,equal,1,1",
]

# A small library to which one row is added: 3 types, 2 variables, 1 method, 1 global, 2 terms.
SMALL = [
    "type,0,unit", "type,1,int", "type,2,fun,0,1", "var,0,0", "var,1,1",
    "method,0,abstract,2", "global,0,1,0", "term,0,num,0", "term,1,unit",
]
NEXT_LINE = HEAD_LINES + len(SMALL) + 1


def after_types(*rows):
    """The three types of the small library and then these rows."""
    return HEAD + lines(*SMALL[:3], *rows)


def after_small(row):
    """The small library and then one row."""
    return HEAD + lines(*SMALL, row)


# Many rows

def many_types(count):
    """Different types: an int, and then functions from the type before to the int."""
    return ["type,0,int"] + ["type,%d,fun,%d,0" % (n, n - 1) for n in range(1, count)]


def section_of(section, count):
    """A library that has this many rows in one section, and a type where one is needed."""
    rows = {
        "var": "var,%d,0",
        "method": "method,%d,abstract,0",
        "global": "global,%d,0,0",
        "term": "term,%d,unit",
    }
    if section == "type":
        return many_types(count)
    return ["type,0,int"] + [rows[section] % n for n in range(count)]


def longest_types():
    """64 types in the most bytes: pairs of two-digit types, and three functions where pairs run out."""
    rows, leaves, listed = ["type,0,unit"], [1], set()
    for number in range(1, 64):
        width = len(str(number - 1))
        widest = [t for t in range(number) if len(str(t)) == width]
        pairs = [(a, b) for a in widest for b in widest if leaves[a] + leaves[b] <= 4]
        pairs = [pair for pair in pairs if pair not in listed]
        # A function in row 1 and in row 10 leaves enough pairs for the rows behind it.
        if pairs and number not in (1, 10):
            a, b = min(pairs, key=lambda pair: leaves[pair[0]] + leaves[pair[1]])
            listed.add((a, b))
            rows.append("type,%d,pair,%d,%d" % (number, a, b))
            leaves.append(leaves[a] + leaves[b])
        else:
            rows.append("type,%d,fun,%d,%d" % (number, number - 1, number - 1))
            leaves.append(1)
    assert sum(",fun," in row for row in rows) == 3
    return rows


def longest_term(number):
    """A term row in the most bytes: a long number first, and later the operation with the longest word."""
    forms = ["term,%d,num,-2147483648" % number]
    if number > 0:
        forms.append("term,%d,op,equal,%d,%d" % (number, number - 1, number - 1))
    return max(forms, key=len)


def longest_library():
    """The longest acceptable text: every section full, and every row in the most bytes that it can have."""
    rows = longest_types()
    rows += ["var,%d,63" % n for n in range(64)]
    rows += ["method,%d,private,63,65535" % n for n in range(64)]
    rows += ["global,%d,63,65535" % n for n in range(16)]
    rows += [longest_term(n) for n in range(1024)]
    return rows


def sound_methods(count):
    """A library that has this many abstract methods, each of a function type."""
    return ["type,0,int", "type,1,fun,0,0"] + ["method,%d,abstract,1" % n for n in range(count)]


def sound_globals(count):
    """A library that has this many globals, each an int with a number."""
    return ["type,0,int"] + ["global,%d,0,0" % n for n in range(count)] + ["term,0,num,1"]


def typed_terms(count):
    """A library that has this many terms, each of a listed type."""
    return ["type,0,int"] + ["term,%d,num,%d" % (n, n) for n in range(count)]


def full_library():
    """A well-typed library with every section full: numbers and their comparison, each under a function of the last type."""
    rows = many_types(64)
    rows += ["var,%d,62" % n for n in range(64)]
    rows += ["method,%d,private,63,1022" % n for n in range(64)]
    rows += ["global,%d,63,1022" % n for n in range(16)]
    rows += ["term,0,num,-2147483648", "term,1,op,equal,0,0"]
    for number in range(2, 1024, 2):
        rows += ["term,%d,lam,63,%d" % (number, number - 1), "term,%d,op,equal,%d,%d" % (number + 1, number - 1, number - 1)]
    return rows


def padded(before, size, padding, after="\n"):
    """The text, then as much padding as makes the library this long, then the end."""
    fill = size - len(before) - len(after)
    return before + padding * fill + after


# The cases, by subject. Each is a name, the input and the line to be printed.

def examples():
    yield "callback_asserts_flag", HEAD + lines(*CALLBACK_ASSERTS_FLAG), mounted(3, 2, 2, 1, 11)
    yield "add_then_subtract_one", "arith,word,-1,1\nplay,1,1,64\n" + lines(*ADD_THEN_SUBTRACT_ONE), mounted(3, 1, 1, 0, 7)
    yield "every_form", HEAD + lines(*EVERY_FORM), refused(18, 9)
    yield "small_library", HEAD + lines(*SMALL), mounted(3, 2, 1, 1, 2)
    yield "empty_library", HEAD, mounted()
    yield "terms_only", HEAD + lines("term,0,unit"), refused(17, 3)


def forms():
    bad_rows = {
        "unknown_section": "row,0,unit",
        "section_in_capitals": "TERM,2,unit",
        "unknown_type_form": "type,3,bool",
        "unknown_method_form": "method,1,hidden,2,0",
        "unknown_term_form": "term,2,loop,0",
        "unknown_operation": "term,2,op,div,0,0",
        "section_word_alone": "term",
        "form_word_missing": "term,2",
        "number_field_missing": "term,2,app,0",
        "number_field_too_many": "term,2,app,0,0,0",
        "abstract_method_with_term": "method,1,abstract,2,0",
        "public_method_without_term": "method,1,public,2",
        "trailing_comma": "term,2,unit,",
        "leading_blank": " term,2,unit",
        "empty_line": "",
        "quoted_word": 'term,2,"unit"',
        "carriage_return_after_word": "term,2,unit\r",
        "byte_zero_in_word": "term,2,un\0it",
        "byte_255_in_word": "term,2,\xff",
    }
    for name, row in bad_rows.items():
        yield name, after_small(row), refused(10, NEXT_LINE)
    yield "no_final_line_feed", HEAD + lines(*SMALL) + "term,2,unit", refused(10, NEXT_LINE)
    yield "no_final_line_feed_and_bad_number", HEAD + "type,+0,unit", refused(10, 3)
    yield "one_line_feed", HEAD + "\n", refused(10, 3)
    yield "all_lines_with_carriage_returns", (HEAD + lines(*SMALL)).replace("\n", "\r\n"), refused(11, 1)
    yield "byte_zero_alone", HEAD + "\0\n", refused(10, 3)
    yield "byte_255_alone", HEAD + "\xff\n", refused(10, 3)


def numbers():
    bad_words = {
        "minus_zero": "-0", "plus_one": "+1", "needless_zeros": "007", "two_zeros": "00", "empty_number": "",
        "minus_alone": "-", "two_minuses": "--1", "minus_behind": "1-", "minus_needless_zero": "-01", "letters": "one",
        "blank_before_number": " 1", "blank_behind_number": "1 ", "long_minus": "\xe2\x88\x921",
        "carriage_return_after_number": "1\r", "byte_zero_in_number": "1\0", "byte_255_in_number": "1\xff", "slash_in_number": "1/", "colon_in_number": "1:",
        "word_above_most": "2147483648", "word_below_least": "-2147483649",
        "number_of_forty_digits": "9" * 40, "two_to_the_64th": str(2 ** 64), "two_to_the_32nd": str(2 ** 32),
    }
    for name, field in bad_words.items():
        yield name, after_small("term,2,num," + field), refused(11, NEXT_LINE)
    for name, field in [("greatest_word", "2147483647"), ("least_word", "-2147483648"), ("minus_one", "-1"), ("zero", "0")]:
        yield name, after_small("term,2,num," + field), mounted(3, 2, 1, 1, 3)
    yield "minus_one_as_reference", after_small("term,2,fst,-1"), refused(11, NEXT_LINE)
    yield "needless_zero_in_reference", after_small("term,2,fst,01"), refused(11, NEXT_LINE)
    yield "running_number_65536", after_small("term,65536,unit"), refused(11, NEXT_LINE)
    yield "running_number_65535", after_small("term,65535,unit"), refused(12, NEXT_LINE)
    yield "reference_65536", after_small("term,2,fst,65536"), refused(11, NEXT_LINE)
    yield "reference_65535", after_small("term,2,fst,65535"), refused(13, NEXT_LINE)
    for section, row in [("method", "method,0,public,2,%d"), ("global", "global,0,2,%d")]:
        yield "term_of_%s_65535" % section, after_types(row % 65535), refused(18, 6)
        yield "term_of_%s_65536" % section, after_types(row % 65536), refused(11, 6)


def orders():
    late = {
        "type_after_terms": "type,3,pair,0,0", "variable_after_terms": "var,2,0",
        "method_after_terms": "method,1,abstract,2", "global_after_terms": "global,1,1,0",
    }
    for name, row in late.items():
        yield name, after_small(row), refused(12, NEXT_LINE)
    yield "running_number_skipped", after_small("term,3,unit"), refused(12, NEXT_LINE)
    yield "running_number_repeated", after_small("term,1,unit"), refused(12, NEXT_LINE)
    yield "running_number_starts_at_one", HEAD + lines("type,1,unit"), refused(12, 3)
    yield "two_lines_swapped", HEAD + lines("type,1,int", "type,0,unit"), refused(12, 3)
    yield "type_after_variable", HEAD + lines("type,0,unit", "var,0,0", "type,1,int"), refused(12, 5)


def references():
    for name, row in [("pair", "type,3,pair,%d,%d"), ("function", "type,3,fun,%d,%d")]:
        yield "%s_of_itself_left" % name, after_types(row % (3, 0)), refused(13, 6)
        yield "%s_of_itself_right" % name, after_types(row % (0, 3)), refused(13, 6)
        yield "%s_of_last_types" % name, after_types(row % (2, 2)), mounted(4)
    for section, row in [("variable", "var,0,%d"), ("method", "method,0,abstract,%d"), ("global", "global,0,%d,0")]:
        yield "%s_of_unknown_type" % section, after_types(row % 3), refused(13, 6)
    unknown = {
        "unknown_variable": "var,2", "unknown_method": "meth,1", "unknown_global": "get,1",
        "lam_of_unknown_variable": "lam,2,1", "lam_of_unknown_term": "lam,1,2",
        "set_of_unknown_global": "set,1,1", "set_to_unknown_term": "set,0,2",
        "op_of_unknown_left": "op,add,2,1", "op_of_unknown_right": "op,add,1,2",
        "pair_of_unknown_left": "pair,2,1", "pair_of_unknown_right": "pair,1,2",
        "fst_of_unknown_term": "fst,2", "snd_of_unknown_term": "snd,2",
        "app_of_unknown_function": "app,2,1", "app_to_unknown_term": "app,1,2",
        "if_of_unknown_condition": "if,2,1,1", "if_of_unknown_then": "if,1,2,1", "if_of_unknown_else": "if,1,1,2",
        "let_of_unknown_variable": "let,2,1,1", "let_of_unknown_value": "let,1,2,1", "let_of_unknown_body": "let,1,1,2",
        "assert_of_unknown_term": "assert,2",
    }
    for name, form in unknown.items():
        yield name, after_small("term,2," + form), refused(13, NEXT_LINE)


def limits():
    words = {16: "sixteen", 17: "seventeen", 64: "sixty_four", 65: "sixty_five", 1024: "most", 1025: "too_many"}
    names = {"type": "types", "var": "variables", "method": "methods", "global": "globals", "term": "terms"}
    # A full section reads. An abstract method of type int is no method, a global without a term is none, and unit is not
    # listed: mounting refuses the first row after the type, at line 4.
    full_sections = {
        "type": mounted(64), "var": mounted(1, 64), "method": refused(18, 4), "global": refused(18, 4), "term": refused(17, 4),
    }
    for section, limit in LIMITS.items():
        full = section_of(section, limit)
        yield "%s_%s" % (words[limit], names[section]), HEAD + lines(*full), full_sections[section]
        over = section_of(section, limit + 1)
        yield "%s_%s" % (words[limit + 1], names[section]), HEAD + lines(*over), refused(14, HEAD_LINES + len(over))
    yield "sixty_four_sound_methods", HEAD + lines(*sound_methods(64)), mounted(2, 0, 64)
    yield "sixty_five_sound_methods", HEAD + lines(*sound_methods(65)), refused(14, 69)
    yield "sixteen_sound_globals", HEAD + lines(*sound_globals(16)), mounted(1, 0, 0, 16, 1)
    yield "seventeen_sound_globals", HEAD + lines(*sound_globals(17)), refused(14, 20)
    yield "most_typed_terms", HEAD + lines(*typed_terms(1024)), mounted(1, terms=1024)
    yield "too_many_typed_terms", HEAD + lines(*typed_terms(1025)), refused(14, 1028)
    yield "every_section_full", HEAD + lines(*full_library()), mounted(64, 64, 64, 16, 1024)
    two = ["type,0,unit", "type,1,pair,0,0"]
    yield "four_leaves", HEAD + lines(*two, "type,2,pair,1,1"), mounted(3)
    yield "four_leaves_in_a_chain", HEAD + lines(*two, "type,2,pair,1,0", "type,3,pair,0,2"), mounted(4)
    yield "five_leaves", HEAD + lines(*two, "type,2,pair,1,1", "type,3,pair,0,2"), refused(14, 6)
    yield "five_leaves_from_three_and_two", HEAD + lines(*two, "type,2,pair,1,0", "type,3,pair,2,1"), refused(14, 6)
    yield "function_is_one_leaf", HEAD + lines(*two, "type,2,pair,1,1", "type,3,fun,2,2", "type,4,pair,3,3"), mounted(5)


def repeats():
    listed = ["type,0,unit", "type,1,int", "type,2,pair,0,1", "type,3,fun,0,1"]
    for name, form in [("unit", "unit"), ("int", "int"), ("pair", "pair,0,1"), ("function", "fun,0,1")]:
        yield name + "_listed_twice", HEAD + lines(*listed, "type,4," + form), refused(15, 7)
    yield "parts_the_other_way_round", HEAD + lines(*listed, "type,4,pair,1,0", "type,5,fun,1,0"), mounted(6)


def two_faults():
    five_leaves = ["type,0,unit", "type,1,pair,0,0", "type,2,pair,1,1"]
    full = many_types(64)
    yield "form_before_number", HEAD + lines("type,+0,unit,"), refused(10, 3)
    yield "operation_word_before_number", after_small("term,+2,op,div,0,0"), refused(10, NEXT_LINE)
    yield "number_before_order", HEAD + lines("type,007,unit"), refused(11, 3)
    yield "number_before_section_order", after_small("type,03,unit"), refused(11, NEXT_LINE)
    yield "number_before_running_number", HEAD + lines("type,1,fun,0,65536"), refused(11, 3)
    yield "order_before_reference", HEAD + lines("type,1,fun,9,9"), refused(12, 3)
    yield "section_order_before_reference", after_small("var,2,9"), refused(12, NEXT_LINE)
    yield "reference_before_rows_limit", HEAD + lines(*full, "type,64,fun,64,0"), refused(13, 67)
    yield "rows_limit_before_repeat", HEAD + lines(*full, "type,64,fun,0,0"), refused(14, 67)
    yield "order_before_limit", HEAD + lines(*five_leaves, "type,4,pair,2,2"), refused(12, 6)
    yield "number_before_reference", HEAD + lines("var,0,65536"), refused(11, 3)
    yield "earlier_line_before_later", HEAD + lines("type,0,int", "type,1,int", "nothing"), refused(15, 4)
    yield "form_before_typing", HEAD + lines(*SMALL, "term,2,fst,0", "nothing"), refused(10, NEXT_LINE + 1)
    yield "reference_before_typing", HEAD + lines(*SMALL, "term,2,fst,0", "term,3,fst,9"), refused(13, NEXT_LINE + 1)
    yield "head_form_before_number", "arith,word,+1\n" + PLAY, refused(10, 1)
    yield "head_number_before_settings", "arith,counter,0,0,+1\n" + PLAY, refused(11, 1)
    yield "play_form_before_number", ARITH + "play,+1,1\n", refused(10, 2)
    yield "play_number_before_bounds", ARITH + "play,17,1,01\n", refused(11, 2)
    yield "settings_before_second_line", "arith,word,1,0\nplay\n", refused(22, 1)
    yield "settings_before_missing_line", "arith,word,1,0\n", refused(22, 1)
    yield "bounds_before_library", ARITH + "play,17,1,64\n" + lines("nothing"), refused(20, 2)
    yield "bounds_before_long_library", ARITH + "play,17,1,64\n" + padded("", 40000, "x"), refused(20, 2)


def settings():
    allowed = {
        "host_words_4096": "word,-2048,2047", "one_host_word": "word,0,0",
        "least_word_alone": "word,-2147483648,-2147483648", "greatest_word_alone": "word,2147483647,2147483647",
        "greatest_4096_words": "word,2147479552,2147483647",
        "counter_host_words_4096": "counter,65535,61440,65535", "counter_top_1": "counter,1,0,1",
        "counter_top_65535": "counter,65535,65535,65535",
    }
    for name, kind in allowed.items():
        yield name, "arith," + kind + "\n" + PLAY, mounted()
    outside = {
        "host_words_4097": "word,-2048,2048", "low_above_high": "word,1,0", "all_words": "word,-2147483648,2147483647",
        "counter_host_words_4097": "counter,65535,0,4096", "counter_top_0": "counter,0,0,0",
        "counter_low_below_0": "counter,3,-1,3", "counter_high_above_top": "counter,3,0,4",
        "counter_low_above_high": "counter,3,2,1",
    }
    for name, kind in outside.items():
        yield name, "arith," + kind + "\n" + PLAY, refused(22, 1)
    badly_written = {
        "counter_top_65536": "counter,65536,0,0", "counter_top_minus_1": "counter,-1,0,0",
        "low_below_least_word": "word,-2147483649,0", "high_above_greatest_word": "word,0,2147483648",
        "low_minus_zero": "word,-0,0", "high_empty": "word,0,", "high_with_carriage_return": "word,0,0\r",
    }
    for name, kind in badly_written.items():
        yield name, "arith," + kind + "\n" + PLAY, refused(11, 1)
    formless = {
        "unknown_kind": "arith,byte,0,0", "word_with_top": "arith,word,3,0,3", "counter_without_top": "arith,counter,0,3",
        "first_line_empty": "", "arith_alone": "arith", "head_lines_swapped": "play,2,1,64",
    }
    for name, line in formless.items():
        yield name, line + "\n" + PLAY, refused(10, 1)


def bounds():
    allowed = {
        "depth_16": "16,1,64", "depth_0": "0,1,64", "insistence_8": "2,8,64", "insistence_0": "2,0,64",
        "steps_1": "2,1,1", "steps_2048": "2,1,2048",
    }
    for name, numbers_ in allowed.items():
        yield name, ARITH + "play," + numbers_ + "\n", mounted()
    outside = {
        "depth_17": "17,1,64", "insistence_9": "2,9,64", "steps_0": "2,1,0", "steps_2049": "2,1,2049",
        "depth_65535": "65535,1,64",
    }
    for name, numbers_ in outside.items():
        yield name, ARITH + "play," + numbers_ + "\n", refused(20, 2)
    badly_written = {
        "depth_65536": "65536,1,64", "insistence_65536": "2,65536,64", "steps_65536": "2,1,65536",
        "depth_minus_1": "-1,1,64", "insistence_empty": "2,,64", "steps_with_needless_zero": "2,1,064",
    }
    for name, numbers_ in badly_written.items():
        yield name, ARITH + "play," + numbers_ + "\n", refused(11, 2)
    formless = {"play_too_few_fields": "play,2,1", "play_too_many_fields": "play,2,1,64,0", "second_line_empty": ""}
    for name, line in formless.items():
        yield name, ARITH + line + "\n", refused(10, 2)


def missing_lines():
    yield "empty_input", "", refused(10, 0)
    yield "second_line_missing", ARITH, refused(10, 0)
    yield "first_line_without_line_feed", ARITH[:-1], refused(10, 1)
    yield "second_line_without_line_feed", ARITH + PLAY[:-1], refused(10, 2)


def lengths():
    first = lines("type,0,unit")
    yield "text_32768_bytes_form", HEAD + padded(first, MOST_BYTES, "x"), refused(10, 4)
    yield "text_32769_bytes_form", HEAD + padded(first, MOST_BYTES + 1, "x"), refused(14, 0)
    yield "text_32768_bytes_number", HEAD + padded(first + "type,1,fun,0,", MOST_BYTES, "1"), refused(11, 4)
    yield "text_32768_bytes_no_line_feed", HEAD + padded(first, MOST_BYTES, "x", ""), refused(10, 4)
    yield "text_32769_bytes_no_line_feed", HEAD + padded(first, MOST_BYTES + 1, "x", ""), refused(14, 0)
    yield "text_32768_line_feeds", HEAD + padded("", MOST_BYTES, "\n"), refused(10, 3)
    yield "text_32769_line_feeds", HEAD + padded("", MOST_BYTES + 1, "\n"), refused(14, 0)
    yield "text_100000_bytes", HEAD + padded(first, 100000, "x"), refused(14, 0)
    # The longest text reads. Its first term is a number, and int is not listed: there are 208 rows before it.
    yield "longest_library", HEAD + lines(*longest_library()), refused(17, 211)
    too_many = longest_library() + ["term,1024,unit"]
    yield "longest_library_and_one_term", HEAD + lines(*too_many), refused(14, HEAD_LINES + len(too_many))
    yield "head_number_of_40000_digits", "arith,word,0," + "1" * 40000 + "\n" + PLAY, refused(11, 1)


# Libraries that read, by what comes of mounting them. Each is a name, the rows and the line to be printed.

# 4 types, 3 variables, 1 method, 1 global, 4 terms; all of it well typed.
TYPED = [
    "type,0,unit", "type,1,int", "type,2,pair,0,1", "type,3,fun,0,1", "var,0,0", "var,1,1", "var,2,2",
    "method,0,abstract,3", "global,0,1,0", "term,0,num,0", "term,1,unit", "term,2,var,2", "term,3,meth,0",
]
TYPED_NEXT = HEAD_LINES + len(TYPED) + 1


def form_name(word, form):
    """The name of a case of one more term: the word, and the fields of the term's form."""
    return "_".join([word] + form.split(","))


def well_typed():
    yield "add_then_subtract_one_over_zero", ADD_THEN_SUBTRACT_ONE, mounted(3, 1, 1, 0, 7)
    for form in [
        "get,0", "lam,0,0", "set,0,0", "op,less,0,0", "pair,1,0", "fst,2", "snd,2", "app,3,1",
        "if,0,1,1", "if,0,2,2", "let,1,0,2", "let,2,2,2", "assert,0", "var,0",
    ]:
        yield form_name("typed", form), TYPED + ["term,4," + form], mounted(4, 3, 1, 1, 5)


def result_types():
    """Terms whose type is seen by whether an assertion may take them."""
    for form, is_int in [
        ("get,0", True), ("set,0,0", False), ("op,equal,0,0", True), ("fst,2", False), ("snd,2", True), ("app,3,1", True),
        ("if,0,0,0", True), ("if,0,1,1", False), ("let,1,0,1", False), ("let,0,1,0", True), ("assert,0", False),
        ("var,1", True), ("var,0", False), ("lam,0,0", False), ("pair,1,0", False), ("meth,0", False),
    ]:
        answer = mounted(4, 3, 1, 1, 6) if is_int else refused(16, TYPED_NEXT + 1)
        yield form_name("asserted", form), TYPED + ["term,4," + form, "term,5,assert,4"], answer


def broken_rules():
    for form in [
        "set,0,1", "op,add,1,0", "op,add,0,1", "fst,0", "snd,3", "app,0,0", "app,3,0", "app,2,1",
        "if,1,0,0", "if,0,0,1", "let,0,0,1", "let,1,2,0", "assert,1", "assert,2",
        "fst,1", "fst,3", "snd,0", "snd,1", "app,1,0", "app,3,2", "if,2,0,0", "if,3,0,0", "if,0,1,0", "if,0,3,2",
        "op,sub,1,0", "op,mul,0,1", "op,less,2,0", "op,equal,0,3", "set,0,2", "set,0,3", "let,1,1,0", "let,2,3,0",
        "assert,3",
    ]:
        yield form_name("broken", form), TYPED + ["term,4," + form], refused(16, TYPED_NEXT)
    without_unit = ["type,0,int", "type,1,fun,0,0", "method,0,abstract,1", "global,0,0,0", "term,0,meth,0"]
    yield "assert_rule_before_list", without_unit + ["term,1,assert,0"], refused(16, 8)
    yield "set_rule_before_list", without_unit + ["term,1,set,0,0"], refused(16, 8)
    for form in ["op,add,0,0", "if,0,0,0", "assert,0"]:
        yield form_name("int_unlisted", form), ["type,0,unit", "term,0,unit", "term,1," + form], refused(16, 5)


def function_types():
    """A global of a function, and terms that take two functions which differ in the type of their argument."""
    base = [
        "type,0,unit", "type,1,int", "type,2,fun,0,1", "type,3,fun,1,1", "var,0,0", "var,1,1", "global,0,2,1",
        "term,0,num,0", "term,1,lam,0,0", "term,2,var,1", "term,3,lam,1,2",
    ]
    yield "functions", base, mounted(4, 2, 0, 1, 4)
    for form in ["set,0,1", "if,0,1,1"]:
        yield form_name("functions", form), base + ["term,4," + form], mounted(4, 2, 0, 1, 5)
    for form in ["set,0,3", "set,0,0", "if,0,1,3", "app,1,3", "let,0,1,0"]:
        yield form_name("functions", form), base + ["term,4," + form], refused(16, 14)
    yield "functions_app_of_get", base + ["term,4,get,0", "term,5,unit", "term,6,app,4,5"], mounted(4, 2, 0, 1, 7)


def unlisted_types():
    int_only, unit_only = ["type,0,int"], ["type,0,unit"]
    yield "unit_unlisted", int_only + ["term,0,unit"], refused(17, 4)
    yield "num_unlisted", unit_only + ["term,0,num,0"], refused(17, 4)
    yield "pair_unlisted", int_only + ["term,0,num,0", "term,1,pair,0,0"], refused(17, 5)
    yield "lam_unlisted", int_only + ["var,0,0", "term,0,num,0", "term,1,lam,0,0"], refused(17, 6)
    yield "set_unlisted", int_only + ["global,0,0,0", "term,0,num,0", "term,1,set,0,0"], refused(17, 6)
    yield "assert_unlisted", int_only + ["term,0,num,0", "term,1,assert,0"], refused(17, 5)
    yield "lam_the_other_way_round", TYPED + ["term,4,lam,1,1"], refused(17, TYPED_NEXT)
    yield "pair_the_other_way_round", TYPED + ["term,4,pair,0,1"], refused(17, TYPED_NEXT)
    yield "earlier_unlisted_first", TYPED + ["term,4,pair,0,0", "term,5,fst,0"], refused(17, TYPED_NEXT)
    yield "earlier_broken_first", TYPED + ["term,4,fst,0", "term,5,pair,0,0"], refused(16, TYPED_NEXT)


def definitions():
    """A method or a global at line 9, and terms after it."""
    start = ["type,0,unit", "type,1,int", "type,2,fun,1,1", "type,3,pair,1,1", "type,4,fun,1,0", "var,0,1"]
    body = [
        "term,0,num,7", "term,1,var,0", "term,2,lam,0,1", "term,3,op,add,0,0", "term,4,let,0,1,0", "term,5,let,0,0,1",
        "term,6,unit",
    ]
    good = {
        "abstract_function": "method,0,abstract,2", "public_lam": "method,0,public,2,2", "private_lam": "method,0,private,2,2",
        "int_with_num": "global,0,1,0", "function_with_lam": "global,0,2,2",
    }
    for name, row in good.items():
        counts = (1, 0) if row.startswith("method") else (0, 1)
        yield name, start + [row] + body, mounted(5, 1, *counts, 7)
    bad = {
        "abstract_int": "method,0,abstract,1", "abstract_pair": "method,0,abstract,3", "public_int": "method,0,public,1,0",
        "public_without_lam": "method,0,public,2,1", "public_of_unknown_term": "method,0,public,2,7",
        "private_of_term_65535": "method,0,private,2,65535", "unit_global": "global,0,0,6", "pair_global": "global,0,3,0",
        "int_with_op": "global,0,1,3", "int_with_unknown_term": "global,0,1,7", "function_with_num": "global,0,2,0",
        "public_lam_of_other_type": "method,0,public,4,2", "function_with_lam_of_other_type": "global,0,4,2",
        "abstract_unit": "method,0,abstract,0", "public_unit": "method,0,public,0,6", "private_int": "method,0,private,1,0",
        "private_unit": "method,0,private,0,6", "private_without_lam": "method,0,private,2,1",
        "private_of_unknown_term": "method,0,private,2,7", "private_lam_of_other_type": "method,0,private,4,2",
        "int_with_lam": "global,0,1,2", "int_with_unit": "global,0,1,6", "function_with_unknown_term": "global,0,2,7",
    }
    for name, row in bad.items():
        yield name, start + [row] + body, refused(18, 9)
    of_term_7 = {
        "public_method_name": ("method,0,public,2,7", "meth,0"), "private_method_name": ("method,0,private,2,7", "meth,0"),
        "public_let_of_lam": ("method,0,public,2,7", "let,0,0,2"), "public_pair": ("method,0,public,3,7", "pair,0,0"),
        "function_with_get": ("global,0,2,7", "get,0"), "int_with_get": ("global,0,1,7", "get,0"),
        "pair_global_with_pair": ("global,0,3,7", "pair,0,0"),
    }
    for name, (row, form) in of_term_7.items():
        yield name, start + [row] + body + ["term,7," + form], refused(18, 9)
    yield "method_before_global", start + ["method,0,abstract,1", "global,0,0,0"] + body, refused(18, 9)
    yield "term_before_method", start + ["method,0,abstract,1"] + body + ["term,7,fst,0"], refused(16, 17)
    yield "unlisted_before_method", start + ["method,0,abstract,1"] + body + ["term,7,pair,0,6"], refused(17, 17)
    yield "second_global", start + ["global,0,1,0", "global,1,1,3"] + body, refused(18, 10)
    yield "second_method", start + ["method,0,abstract,2", "method,1,abstract,1"] + body, refused(18, 10)


def lams_of_definitions():
    """A method or a global whose lam is of its type and isn't closed, and one whose lam has another argument."""
    for name, row in [("function_not_closed", "global,0,1,1"), ("private_not_closed", "method,0,private,1,1")]:
        start = ["type,0,int", "type,1,fun,0,0", "var,0,0", "var,1,0"]
        yield name, start + [row, "term,0,var,1", "term,1,lam,0,0"], refused(18, 7)
    start = ["type,0,int", "type,1,unit", "type,2,fun,0,0", "type,3,fun,1,0", "var,0,0"]
    yield "lam_of_other_argument", start + ["method,0,public,3,1", "term,0,var,0", "term,1,lam,0,0"], refused(18, 8)


def closed_bodies():
    """A public method at line 8 of type int to int, whose body is the last of these terms."""
    start = ["type,0,int", "type,1,fun,0,0", "var,0,0", "var,1,0", "var,2,1"]
    bodies = {
        "closed_by_lam": (["var,0", "lam,0,0"], True),
        "other_variable_free": (["var,1", "lam,0,0"], False),
        "closed_by_let": (["num,1", "var,1", "let,1,0,1", "lam,0,2"], True),
        "let_binds_no_value": (["var,1", "let,1,0,0", "lam,0,1"], False),
        "let_of_argument": (["var,0", "let,0,0,0", "lam,0,1"], True),
        "shadowed_by_lam": (["var,0", "lam,0,0", "app,1,0", "lam,0,2"], True),
        "free_in_condition": (["num,1", "var,1", "if,1,0,0", "lam,0,2"], False),
        "free_in_then": (["num,1", "var,1", "if,0,1,0", "lam,0,2"], False),
        "free_in_else": (["num,1", "var,1", "if,0,0,1", "lam,0,2"], False),
        "free_in_left": (["num,1", "var,1", "op,add,1,0", "lam,0,2"], False),
        "free_in_right": (["num,1", "var,1", "op,add,0,1", "lam,0,2"], False),
        "free_function": (["num,1", "var,2", "app,1,0", "lam,0,2"], False),
        "free_argument": (["var,0", "lam,0,0", "var,1", "app,1,2", "lam,0,3"], False),
        "free_in_unused_term": (["var,1", "var,0", "lam,0,1"], True),
        "free_in_let_body": (["num,1", "var,1", "let,0,0,1", "lam,0,2"], False),
    }
    for name, (forms_, closed) in bodies.items():
        terms = ["term,%d,%s" % (number, form) for number, form in enumerate(forms_)]
        answer = mounted(2, 3, 1, 0, len(terms)) if closed else refused(18, 8)
        yield name, start + ["method,0,public,1,%d" % (len(terms) - 1)] + terms, answer


def free_in_other_forms():
    """A public method at line 12, whose body is the last of these terms and has a free variable."""
    start = [
        "type,0,int", "type,1,fun,0,0", "type,2,unit", "type,3,pair,0,0", "type,4,fun,0,2", "type,5,fun,0,3",
        "var,0,0", "var,1,0", "var,2,3",
    ]
    bodies = {
        "free_in_pair_left": (5, [], ["num,1", "var,1", "pair,1,0", "lam,0,2"]),
        "free_in_pair_right": (5, [], ["num,1", "var,1", "pair,0,1", "lam,0,2"]),
        "free_in_fst": (1, [], ["var,2", "fst,0", "lam,0,1"]),
        "free_in_snd": (1, [], ["var,2", "snd,0", "lam,0,1"]),
        "free_in_assert": (4, [], ["var,1", "assert,0", "lam,0,1"]),
        "free_in_set": (4, ["global,0,0,0"], ["num,1", "var,1", "set,0,1", "lam,0,2"]),
    }
    for name, (type_, globals_, forms_) in bodies.items():
        terms = ["term,%d,%s" % (number, form) for number, form in enumerate(forms_)]
        method = "method,0,public,%d,%d" % (type_, len(terms) - 1)
        yield name, start + [method] + globals_ + terms, refused(18, 12)


def changed_example():
    """The first example with one row changed."""
    changes = [
        ("set_to_assertion", "term,4,set,0,3", "term,4,set,0,2", refused(16, 15)),
        ("callback_of_number", "term,7,app,6,5", "term,7,app,6,0", refused(16, 18)),
        ("pair_in_place_of_let", "term,8,let,1,4,7", "term,8,pair,4,7", refused(17, 19)),
        ("callback_of_type_unit", "method,0,abstract,2", "method,0,abstract,0", refused(16, 18)),
        ("method_of_body", "method,1,public,2,10", "method,1,public,2,9", refused(18, 9)),
        ("flag_of_get", "global,0,1,0", "global,0,1,1", refused(18, 10)),
    ]
    for name, row, other, answer in changes:
        assert row in CALLBACK_ASSERTS_FLAG
        yield name, [other if each == row else each for each in CALLBACK_ASSERTS_FLAG], answer


TEXT_SUBJECTS = [
    examples, forms, numbers, orders, references, limits, repeats, two_faults,
    settings, bounds, missing_lines, lengths,
]
MOUNT_SUBJECTS = [
    well_typed, result_types, broken_rules, function_types, unlisted_types, definitions, lams_of_definitions,
    closed_bodies, free_in_other_forms, changed_example,
]


def all_cases():
    """All cases as (name, input bytes, line to be printed); no name twice."""
    cases = [(name, encoded(text), answer) for subject in TEXT_SUBJECTS for name, text, answer in subject()]
    cases += [(name, encoded(HEAD + lines(*rows)), answer) for subject in MOUNT_SUBJECTS for name, rows, answer in subject()]
    names = [name for name, _, _ in cases]
    assert len(set(names)) == len(names), "a name stands twice"
    return cases


# What the program of cases prints behind the named cases: the first example read into few rows, and rows made by hand
# mounted one after the other.
ROW_LINES = [
    "24 rows: read with 11 terms, 5 rows stay",
    "19 rows: read with 11 terms, 5 rows stay",
    "18 rows: refused,14,19, 6 rows stay",
    "0 rows: refused,14,1, 24 rows stay",
    "0 rows: read with 0 terms, 24 rows stay",
    "0 rows: refused,10,1, 24 rows stay",
    "by hand: mounted, held 0,0,0,0,0",
    "by hand: mounted, held 1,1,0,0,0",
    "by hand: refused,11,2, held 1,1,0,0,0",
    "by hand: refused,12,2, held 1,1,0,0,0",
    "by hand: refused,13,2, held 1,1,0,0,0",
    "by hand: refused,14,4, held 1,1,0,0,0",
    "by hand: refused,15,2, held 1,1,0,0,0",
    "by hand: refused,16,3, held 1,1,0,0,0",
    "by hand: refused,17,1, held 1,1,0,0,0",
    "by hand: refused,18,2, held 1,1,0,0,0",
    "by hand: refused,11,4, held 1,1,0,0,0",
    "by hand: refused,12,4, held 1,1,0,0,0",
    "by hand: refused,13,4, held 1,1,0,0,0",
    "by hand: refused,13,3, held 1,1,0,0,0",
    "by hand: refused,16,4, held 1,1,0,0,0",
    "by hand: refused,17,3, held 1,1,0,0,0",
    "by hand: refused,11,2, held 1,1,0,0,0",
    "by hand: refused,11,2, held 1,1,0,0,0",
    "by hand: refused,11,2, held 1,1,0,0,0",
    "by hand: refused,12,3, held 1,1,0,0,0",
    "by hand: refused,12,2, held 1,1,0,0,0",
    "by hand: refused,11,2, held 1,1,0,0,0",
    "by hand: mounted, held 1,0,0,0,1",
]
