"""Ways to damage a line of text so that it is hardly ever one again, and lines of unusual length or bytes."""
import re

ALPHABET = ' !#+,-0123456789[]abcdefhlmnopqrstuwxyz\t'
LETTERS = 'wxbhsdq'
ANY_REGISTER = r'\b[%s](?:\d+|zr)\b|\bsp\b' % LETTERS
ANY_NUMBER = r'#(-?)(\d+)'
A_HINT = r'(?<=^prfm )[^,]+|(?<=^prfum )[^,]+'
MNEMONIC = r'^\w+'

MNEMONICS = (
    'strb ldrb ldrsb strh ldrh ldrsh str ldr ldrsw prfm sturb ldurb ldursb sturh ldurh ldursh stur ldur ldursw prfum '
    'stlurb ldapurb ldapursb stlurh ldapurh ldapursh stlur ldapur ldapursw stp ldp ldpsw stnp ldnp '
    'ldxrb ldxrh ldxr ldaxrb ldaxrh ldaxr ldarb ldarh ldar stlrb stlrh stlr stxrb stxrh stxr stlxrb stlxrh stlxr').split()
UNKNOWN_MNEMONICS = (
    'strsb strsh strsw stursb stursw stlursb stlursw stlursh stpsw stnpsw ldnpsw ldprfm prflum stlprfm ldaprfm prfmb '
    'prfur rprfm ldtr ldtrb sttr ldapr ldaprb ldxp ldaxp stxp stlxp ldlar ldlarb stllr stllrh cas casb casal ldxrsb ldarsw '
    'ldxrw stxrw stlxrs ldaxur stlar ldlr staxr ldlxr stlx ldax stx ldx lda stl ldapru ldapurw ldraa stgp ldg stg ldrd '
    'strd ldrw ldrx ldrs '
    'ldps ldpw ldurs ld st l s ldrsbw ldrbs swp ldadd mov add b nop ldr.w ldrb.w '
    'ldrq strq ldrv strv ldpq stpq ldurq ldnpq ld1 st1 ld1r ldr.q vldr vstr fldr fmov movi ldtp stlp ldapurq').split()
HINTS = [kind + level + policy for kind in ('pld', 'pli', 'pst') for level in ('l1', 'l2', 'l3')
         for policy in ('keep', 'strm')]
# Hints that are none, and such as only look like one.
NO_HINTS = (
    '#32 #33 #-1 #031 #00 #06 #0x5 #0x06 # #256 #+7 5 6 x5 w5 xzr keep strm pld pldl1 plil1 l1keep pldkeep pldl0keep '
    'pldl4keep pldl1keeps pldl1 pldl1kep pldl1str pldl01keep pldl1strmkeep pddl1keep pltl1keep pspl1keep dldl1keep '
    'pldslckeep plislcstrm pstslckeep PLDL1KEEP pldL1keep Pldl1keep pldl1Keep pldl1keep# #pldl1keep pldl1-keep').split()

# A place, and what may stand there instead.
REPLACEMENTS = {
    # No space is free, and none may be added.
    'space added': (r'^|$|(?<=[ ,\[\]#!-])|(?=[,\[\]#!])', [' ']),
    'space dropped': (' ', ['']),
    'space otherwise': (' ', ['\t', '\r', '\v', '\f', '\0', '\xa0', '_', ',', '  ']),
    'tab after the mnemonic': (r'(?<=^\w{3}) |(?<=^\w{4}) |(?<=^\w{5}) ', ['\t', ' \t', '\t ']),
    'trailing bytes': ('$', [' ', '  ', '\t', '\r', '\0', ',', ';', '!', ']', '\xff', '//', ' // load', '\r\r', '0']),
    'leading bytes': ('^', [' ', '  ', '\t', '\r', '\0', ',', ';', '#', '\xef\xbb\xbf', '\x1b', '0', 'x']),
    'two lines in one': ('^(.*)$', [r'\1\1', r'\1 \1', r'\1, \1', '\\1\t\\1', '\\1\r\\1']),
    'as a listing': ('^(.*)$', ['\\1\t0', '-\t\\1', '385ff020\t\\1\t0']),
    'register with a leading zero': (r'\b[%s](?=\d)' % LETTERS, [r'\g<0>0', r'\g<0>00']),
    'register above 30': (
        ANY_REGISTER,
        [letter + str(number) for letter in LETTERS for number in (
            31, 32, 33, 40, 99, 100, 255, 256, 287, 1 << 32, (1 << 32) + 1, 1 << 64, (1 << 64) + 1)]),
    'register 31 by another name': (
        ANY_REGISTER, 'sp wsp xzr wzr zr xsp x31 w31 bzr hzr szr dzr qzr qsp b31 h31 s31 d31 q31'.split()),
    'letter of a register': (r'\b[%s](?=\d|zr)' % LETTERS, 'wxwxbhsdqvrcepz'),
    'width of a vector register': (r'\b[bhsdq](?=\d)', 'bhsdq'),
    'vector register by an alias': (
        r'\b[bhsdq](\d+)', [r'v\1', r'v\1.16b', r'{v\1.16b}', r'{v\1}', r'v\1.d[0]', r'v\1.q', r'z\1', r'p\1', r'vd\1']),
    'register by an alias': (ANY_REGISTER, ['fp', 'lr', 'ip0', 'ip1', 'pc', 'r5', 'x', 'w', 'v', 'q', 'd']),
    'other register': (ANY_REGISTER, [letter + str(number) for letter in LETTERS for number in range(31)]),
    'number with a leading zero': (ANY_NUMBER, [r'#\g<1>0\2', r'#\g<1>00\2']),
    'number with a sign': (ANY_NUMBER, [sign + r'\2' for sign in ('#+', '#--', '#- ', '# ', '#-+', '-#', '#~')]),
    'number without its mark': (ANY_NUMBER, [mark + r'\1\2' for mark in ('', '=', '$', '##', '.')]),
    'number without digits': (ANY_NUMBER, [r'#\1']),
    'longer number': (ANY_NUMBER, [r'\g<0>' + digits for digits in ('0', '1', '9', '00', '0' * 20, '7' * 40)]),
    'zero shown': (r'(?<=\[sp)\]$|(?<=\[x\d)\]$|(?<=\[x\d\d)\]$', [', #0]', ', #-0]', ', 0]', ', #00]', ', ]']),
    'offset hidden': (r', #-?\d+(\]!$|$)', [r'\1']),
    'negative zero': (ANY_NUMBER, ['#-0']),
    'zero for an offset': (r'#-?\d+(?=\]?!?$)', ['#0']),
    'other mnemonic': (MNEMONIC, MNEMONICS),
    'unknown mnemonic': (MNEMONIC, UNKNOWN_MNEMONICS),
    'longer mnemonic': (MNEMONIC, [r'\g<0>' + letters for letters in ('b', 'h', 'w', 'x', 'sw', 'r', 'm', 'p')]),
    'other hint': (A_HINT, HINTS),
    'hint by number': (A_HINT, ['#%d' % number for number in range(32)]),
    'no hint': (A_HINT, NO_HINTS),
    'hint for a register': (r'(?<= )[%s]\w+' % LETTERS, HINTS + ['#%d' % number for number in range(32)]),
    'other amount': (r'(?<=[a-z] #)[0-4](?=\]$)', ['0', '1', '2', '3', '4', '5', '00', '-1', '8']),
    'amount dropped': (r' #[0-4]\]$', [']']),
    'amount added': (r'(?<=xt[wx])\]$', [' #%d]' % amount for amount in range(6)]),
    'shift added': (r'(?<=, x)(\d+|zr)\]$', [r'\1, lsl]'] + [r'\1, lsl #%d]' % amount for amount in range(6)]),
    'other extend': (r'\b(lsl|uxtw|sxtw|sxtx)\b', 'uxtx uxtw sxtw sxtx lsl lsr asr ror uxtb uxth sxtb mul'.split()),
    'writeback added': (r'\]$', [']!', '], #8', '], x2', '], #0', ']!, #0']),
    'writeback dropped': (r'!$|(?<=\]), #-?\d+$', ['']),
    'other brackets': (r'[\[\]]', ['', '(', ')', '{', '}', '[', ']', '[[', ']]']),
    'operand dropped': (r', [^,\[\]]+|(?<= )[^,\[\]]+, ', ['']),
    'operand doubled': (r'([^,\[\] ]+, )', [r'\1\1']),
    'status dropped': (r'^(st\w+ )w\w+, (?=\w)', [r'\1']),
    'status added': (r'^(\w+ )(?=\w+, \[)', [r'\1w5, ', r'\1x5, ', r'\1wzr, ', r'\1sp, ']),
    'status by its whole register': (r'^(stl?xr[bh]? )w', [r'\1x']),
    'literal by its place': (
        r'^(\w+ \S+, )#(-?\d+)$',
        [r'\1[pc, #\2]', r'\1.\2', r'\1.+\2', r'\g<1>0x\2', r'\1=\2', r'\1[pc], #\2', r'\1label\2']),
}


def replaced(rng, pattern, text, make):
    """The text with one of the places that a pattern finds made anew; None if there is none."""
    places = list(re.finditer(pattern, text))
    if not places:
        return None
    found = rng.choice(places)
    return text[:found.start()] + make(found) + text[found.end():]


def replacement(pattern, choices):
    return lambda rng, text: replaced(rng, pattern, text, lambda found: found.expand(rng.choice(choices)))


def number_changed(change):
    """Replaces a number by what this makes of it."""
    def damage(rng, text):
        return replaced(rng, ANY_NUMBER, text, lambda found: '#%d' % change(rng, int(found[1] + found[2])))
    return damage


def upper(pattern):
    return lambda rng, text: replaced(rng, pattern, text, lambda found: found[0].upper())


KINDS = {
    'upper case': upper('^.*$'),
    'mnemonic in upper case': upper(MNEMONIC),
    'letter in upper case': upper('[a-z]'),
    'hexadecimal number': lambda rng, text: replaced(
        rng, ANY_NUMBER, text, lambda found: '#%s0x%x' % (found[1], int(found[2]))),
    'number negated': number_changed(lambda rng, number: -number),
    # No multiple any more, past an end, or another word's line.
    'number stepped': number_changed(lambda rng, number: number + rng.choice([-8, -4, -2, -1, 1, 2, 4, 8])),
    # The same modulo a power of two at which a reader may wrap.
    'number wrapped': number_changed(
        lambda rng, number: number + rng.choice([-1, 1]) * (1 << rng.choice([7, 9, 12, 19, 32, 63, 64]))),
    **{name: replacement(*how) for name, how in REPLACEMENTS.items()},
}


def any_byte(rng):
    """Any but a newline, which would make two lines."""
    return chr(rng.choice([byte for byte in range(256) if byte != 10]))


def at_a_byte(make):
    """Replaces one byte by what this makes of it."""
    def damage(rng, text):
        at = rng.randrange(len(text))
        return text[:at] + make(rng, text[at]) + text[at + 1:]
    return damage


def neighbours_exchanged(rng, text):
    at = rng.randrange(len(text) - 1)
    return text[:at] + text[at + 1] + text[at] + text[at + 2:]


BYTE_KINDS = {
    'byte changed': at_a_byte(lambda rng, byte: any_byte(rng)),
    'letter changed': at_a_byte(lambda rng, byte: rng.choice(ALPHABET)),
    'bit flipped': at_a_byte(lambda rng, byte: chr(ord(byte) ^ 1 << rng.randrange(8))),
    'byte dropped': at_a_byte(lambda rng, byte: ''),
    'byte doubled': at_a_byte(lambda rng, byte: byte * 2),
    'byte inserted': at_a_byte(lambda rng, byte: any_byte(rng) + byte),
    'letter inserted': at_a_byte(lambda rng, byte: rng.choice(ALPHABET) + byte),
    'neighbours exchanged': neighbours_exchanged,
    'end cut off': lambda rng, text: text[:rng.randrange(1, len(text))],
    'start cut off': lambda rng, text: text[rng.randrange(1, len(text)):],
    'letter at the end': lambda rng, text: text + rng.choice(ALPHABET),
}


def damaged_texts(rng, texts, kinds, each):
    """So many texts for each kind of damage, or as many as it applies to, by the name of the kind."""
    shuffled = list(texts)
    damaged = {}
    for name, damage in kinds.items():
        rng.shuffle(shuffled)
        damaged[name] = found = []
        for text in shuffled:
            again = damage(rng, text)
            if again not in (None, text):
                found.append(again)
            if len(found) == each:
                break
    return damaged


# A text and lines that it is a part of, by their lengths: those of buffers that a reader may have among them.
TEXT = b'ldr x0, [x1, #8]'
LENGTHS = (15, 16, 17, 29, 30, 31, 32, 33, 34, 35, 36, 37, 63, 64, 65, 127, 128, 255, 256, 257, 1000, 4095, 4096, 4097, 5000)

# Almost the line of a word, or another assembler's line; some are lines.
NEAR_MISSES = '''\
ldpsw w0, w1, [x2]|ldpsw x0, w1, [x2]|ldpsw x0, x1, [x2]|ldnpsw x0, x1, [x2]|stpsw x0, x1, [x2]|stlur #5, [x1]
ldapur #7, [x1]|prflum #7, [x1]|prfm #7, [x1], #8|prfm #7, [x1, #8]!|prfum #7, [x1], #8|prfum #7, #8|prfum #7, [x1, x2]
ldapur pldl1keep, [x1]|prfm pldl1keep, [x1], #8|prfm pldl1keep, [x1, #8]!|prfum pldl1keep, #8|ldr pldl1keep, [x1]
prfum #0, [x1]|prfum pldl1keep, [x1]|prfm #1, [x1]|prfm #6, [x1]|prfm #06, [x1]|prfm pldl4keep, [x1]|prfm plil1, [x1]
prfm pldl1keep, [x10, w10, uxtw #3]|prfm pstl3strm, #-1048576|prfm #23, [x1]|prfm PLDL1KEEP, [x1]|stp pldl1keep, x1, [x2]
ldur x0, [x1, x2]|ldur x0, #8|stlurb w0, [x1], #1|ldapurb w0, #4|str x0, #8|ldrb w0, #8|ldrsh x0, #8|ldrsw w0, #8
stp x0, x1, #8|stp x0, x1, [x2, x3]|ldnp x0, x1, [x2], #16|ldnp x0, x1, [x2, #16]!|stnp w0, w1, [x2, #8]
ldrb x0, [x1]|ldrsb w0, [x1]|ldrsb x0, [x1]|strb x0, [x1]|ldr x0, [x1, #-8]|ldr x0, [x1, #7]|ldr x0, [x1, #255]
ldur x0, [x1, #8]|ldr x0, [x1, #0]|ldr x0, [x1]!|ldr x0, [x1],|ldr x0, [x1], |ldr x0, [x1,]|ldr x0, [x1, ]|ldr x0, []
ldr x0, [|ldr x0, [x1, x2, lsl]|ldr x0, [x1, x2, lsl #0]|ldr x0, [x1, x2, lsl #1]|ldr x0, [x1, x2, lsl #3]
ldrb w0, [x1, x2, lsl #0]|ldrb w0, [x1, x2, lsl #1]|ldrb w0, [x1, x2, sxtx #0]|ldr x0, [x1, x2, uxtx]
ldr x0, [x1, x2, uxtx #3]|ldr x0, [x1, w2]|ldr x0, [x1, w2, lsl #3]|ldr x0, [x1, w2, sxtx]|ldr x0, [x1, x2, uxtw]
ldr x0, [x1, x2, sxtw #3]|ldr x0, [x1, x2]!|ldr x0, [x1], x2|ldr x0, [x1, sp]|ldr x0, [xzr]|ldr sp, [x0]
ldr x0, [x31]|ldr x31, [x0]|ldr x0, [w1]|ldr x0, [wsp]|ldr x0, [sp, xzr]|ldr xzr, [sp, wzr, sxtw]
prfm pldl1keep, [x1]|prfm pldl1keep,[x1]|prfm #31, [x1]|prfm #32, [x1]|prfm x0, [x1]|ldr #0, [x1]|ldr x0, #-0|ldr x0, #0|ldr x0, #00
ldr x0, 0|ldr x0, #2|ldr x0, #1048572|ldr x0, #1048576|ldr x0, #-1048576|ldr x0, #-1048580|ldr x0, #4294967296
ldr x0, #18446744073709551616|ldr x0, #-18446744073709551612|ldr q0, [x1]|ldr d0, #8|ldp q0, q1, [x2]|ldp q0, q0, [x2]
ldr b0, #4|ldr h0, #4|ldr s0, #4|ldr q0, #-1048576|ldr q0, #1048576|str q0, #8|ldur q0, #8|ldrsw s0, #8|ldrb b0, [x1]
ldr q31, [sp]|ldr q32, [x1]|ldr qzr, [x1]|ldr qsp, [x1]|ldr q00, [x1]|ldr v0, [x1]|ldr v0.16b, [x1]|ldr {v0.16b}, [x1]
ldr q0, [q1]|ldr q0, [d1]|ldr x0, [x1, d2]|ldr q0, [x1, q2]|ldr q0, [x1, s2, uxtw]|ldr q0, [b1]|stxr b2, x0, [x1]
ldr b0, [x1, x2]|ldr b0, [x1, x2, lsl #0]|ldr b0, [x1, x2, lsl]|ldr b0, [x1, w2, uxtw]|ldr b0, [x1, w2, uxtw #0]
ldr q0, [x1, x2, lsl #4]|ldr q0, [x1, x2, lsl #3]|ldr q0, [x1, x2, lsl #0]|ldr q0, [x1, x2, lsl #5]|ldr x0, [x1, x2, lsl #4]
ldr q0, [x1, w2, sxtw #4]|ldr d0, [x1, w2, sxtw #4]|ldr h0, [x1, x2, sxtx #1]|ldr s0, [x1, x2, sxtx #3]|ldr q0, [x1, #8]
ldr q0, [x1, #16]|ldr q0, [x1, #65520]|ldr q0, [x1, #65536]|ldr q0, [x1, #-16]|ldur q0, [x1, #-256]|ldur q0, [x1, #256]
ldr q0, [x1], #255|ldr q0, [x1], #256|str q1, [x1, #-256]!|ldr d1, [x1], #8|ldr b0, [x1, #4095]|ldr b0, [x1, #4096]
stp q0, q1, [x2, #1008]|stp q0, q1, [x2, #1024]|stp q0, q1, [x2, #-1024]!|stp q0, q1, [x2], #8|ldnp q0, q1, [x2, #16]
stp s0, d1, [x2]|stp d0, x1, [x2]|stp x0, d1, [x2]|stp b0, b1, [x2]|stp h0, h1, [x2]|ldpsw s0, s1, [x2]|ldpsw d0, d1, [x2]
stlur q0, [x1]|ldapur d0, [x1]|ldapur q0, [x1, #8]|ldxr d0, [x1]|ldar q0, [x1]|stlr b0, [x1]|prfm q0, [x1]|ldtr q0, [x1]
ldrsb b0, [x1]|ldrh h0, [x1]|strb b0, [x1]|ldursw s0, [x1]|ldr s0, [x1, #2]|ldr d0, [x1, #4]|ldr h0, [x1, #1]|ldr h0, [x1, #8190]
ldxr x0, [x1]|ldxr w0, [x1]|ldxrb x0, [x1]|ldxrh w0, [sp]|ldxr x0, [x1, #0]|ldxr x0, [x1, #8]|ldxr x0, [x1]!|ldxr x0, #8
ldar x0, [x1], #8|ldar x0, [x1, x2]|ldaxr xzr, [sp]|ldaxr sp, [x0]|ldxr x0, [xzr]|ldxr x0, [w1]|ldxr x0|ldxr x0,|ldxr x0, x1
stxr w2, x0, [x1]|stxr x2, x0, [x1]|stxr w2, w0, [x1]|stxrb w2, x0, [x1]|stlxrh w2, w0, [x1]|stlxrh w2, w0, [x1, #0]
stxr wzr, x0, [sp]|stxr wsp, x0, [sp]|stxr w31, x0, [x1]|stxr w2, x2, [x1]|stxr w2, x0, [x2]|stxr x0, [x1]|stlr w2, x0, [x1]
stxr w2,x0, [x1]|stxr w2, x0,[x1]|stxr  w2, x0, [x1]|stlr x0, [x1]|stlrb x0, [x1]|stlr xzr, [sp]|ldxr w2, x0, [x1]
ldxp x0, x1, [x2]|stxp w2, x0, x1, [x3]|ldlar x0, [x1]|stllr x0, [x1]|ldapr x0, [x1]|cas x0, x1, [x2]|casp x0, x1, x2, x3, [x4]
rprfm #0, x1, [x2]|ldtr x0, [x1]|nop|.word 0|385ff020|short\t-\t1|385ff020\tldurb w0, [x1, #-1]\t0
-|#|ldr|ldr |ldr x0|ldr x0,|ldr x0, '''


def odd_lines():
    """Lines of unusual length, of unusual bytes, and near misses."""
    lines = [b'', b' ', b'\t', b'\r', b'\0', b'\xff' * 16, bytes(byte for byte in range(256) if byte != 10),
             TEXT + b'\0', b'\0' + TEXT, TEXT[:5] + b'\0' + TEXT[5:], TEXT + b'\0' * 4,
             'ldr x0, [x\uff11, #8]'.encode(), 'ldr\u00a0x0, [x1]'.encode(), '\ufeffldr x0, [x1]'.encode()]
    for length in LENGTHS:
        lines += [b'x' * length, TEXT.ljust(length), TEXT.rjust(length), b'ldr x0, #'.ljust(length, b'9'),
                  b'ldr x0, [x1, #'.ljust(length, b'0') + b'8]']
    lines.append(b'ldr x0, [x1], #'.ljust(70000, b'1'))
    return lines + [line.encode() for line in NEAR_MISSES.replace('\n', '|').split('|')]
