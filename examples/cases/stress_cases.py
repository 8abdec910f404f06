"""Writes the cases of `stress` for the crate test_program: stress_cases.py > ../../crates/test_program/data/stress.cases

What a case is to give is worked out here, from the words that `instruction_mix.py` makes, and not from the program. The code is a line: it goes on at the
word behind each, and a branch may go past one word more. Nothing writes the condition register or the link register. So:

- from the entry with 0 in place of any no branch is taken, and the run leaves the code behind as many steps as it has words;
- where the values of a counter are found word by word (sets of 16, intervals of at most the limit), an undecided branch leads to the two words behind it, so
  each word is reached, and transferred once: what leads to it stands before it, and the least pending address is transferred first;
- where a counter has one value or any (sets of one, definitions, affine forms), the first branch leads to too many addresses;
- known bits of a counter are those in which the two words behind a branch agree. Of them this says only what comes of a branch at an address that is 4 modulo 8,
  where they differ in one bit; of other branches there is no case over known bits alone, or with definitions.
"""

import os
import sys

sys.dont_write_bytecode = True
sys.path.insert(0, os.path.join(os.path.dirname(os.path.abspath(__file__)), '..'))

from instruction_mix import BASE, KINDS, words

BASES = ('const', 'kset', 'interval', 'affine', 'defuse', 'const+interval', 'kset+interval', 'kset+affine', 'kset+defuse', 'interval+affine',
         'interval+defuse', 'affine+defuse', 'bits', 'kset+bits', 'interval+bits', 'bits+defuse')
BRANCH = KINDS[7]

# What tells the two words behind a branch apart.
TELLING = ('kset', 'interval')


def outcome(number, count, base):
    """The status and the lines of a run; none where this does not know."""
    code = words(number, count)
    branches = [BASE + 4 * i for i, word in enumerate(code) if word == BRANCH]
    parts = base.split('+')
    if not any(part in TELLING for part in parts):
        if 'bits' in parts:
            if any(at % 8 != 4 for at in branches):
                return None
        elif branches:
            return 10, ['targets %08x %s' % (branches[0], ' '.join('any' for _ in parts))]
    return 0, ['words %d' % count, 'transfers %d' % count, 'elements %d' % count, 'verdict accepted', 'steps %d' % count, 'stop left']


def case(name, line, status, lines, single=()):
    print('\ncase ' + name)
    print('words ' + line) if line else None
    for word in single:
        print('word ' + word)
    print('status %d' % status)
    for text in lines:
        print('| ' + text)


def bad(name, line, single=()):
    case(name, line, 2, ['bad words'], single)


def told(name, number, count, base=None, line=None):
    found = outcome(number, count, base or 'kset+interval')
    if found is None:
        return False
    case(name, line or 'stress %d %d' % (number, count) + (' --base ' + base if base else ''), *found)
    return True


def main():
    print('# Stresses: code that is made from a number, analysed, checked and run. Written by examples/cases/stress_cases.py.')
    told('one_word', 7, 1)
    told('two_words', 0, 2)
    told('a_thousand_words', 1, 1000)
    told('a_thousand_words_again', 1, 1000)
    told('four_thousand_words', 1, 4096)
    told('the_greatest_number', 4294967295, 5)
    told('five_digits', 7, 1, line='stress 7 00001')
    told('ten_digits', 7, 1, line='stress 0000000007 1')
    told('the_base_before_the_number', 7, 1, 'const', 'stress --base const 7 1')
    told('the_base_behind_an_equals_sign', 7, 1, 'const', 'stress 7 --base=const 1')
    told('words_behind_dashes', 7, 1, line='stress --base kset -- 7 1')

    print('\n# Over each base.')
    for base in BASES:
        name = base.replace('+', '_')
        told('one_word_over_' + name, 7, 1, base)
        without = next(n for n in range(1000) if BRANCH not in words(n, 6))
        told('no_branch_over_' + name, without, 6, base)
        with_one = next(n for n in range(1000) if BRANCH in words(n, 6))
        told('a_branch_over_' + name, with_one, 6, base)
        apart = next(n for n in range(1000) if BRANCH in words(n, 6) and outcome(n, 6, 'bits') is not None)
        told('a_branch_at_an_odd_word_over_' + name, apart, 6, base)
        told('sixty_words_over_' + name, 12345, 60, base)

    print('\n# Words of another form.')
    bad('no_words', 'stress 7 0')
    bad('too_many_words', 'stress 7 16385')
    bad('six_digits', 'stress 7 000001')
    bad('too_great_a_number', 'stress 4294967296 1')
    bad('eleven_digits', 'stress 00000000007 1')
    bad('no_number', 'stress')
    bad('no_count', 'stress 7')
    bad('one_word_too_many', 'stress 7 1 1')
    bad('a_number_in_hex', 'stress 7f 1')
    bad('a_sign', 'stress +7 1')
    bad('a_number_below_zero', 'stress -7 1')
    bad('an_empty_number', 'stress', ('', '1'))
    bad('an_empty_count', 'stress 7', ('',))
    bad('a_blank_in_a_number', 'stress', (' 7', '1'))
    bad('an_unknown_base', 'stress 7 1 --base sets')
    bad('a_base_twice', 'stress 7 1 --base kset --base kset')
    bad('no_base', 'stress 7 1 --base')
    for option in ('--at 00010000', '--order big', '--steps 1', '--calls 1', '--limit 64', '--widen 4', '--open'):
        bad('with_' + option.split()[0][2:], 'stress 7 1 ' + option)


if __name__ == '__main__':
    main()
