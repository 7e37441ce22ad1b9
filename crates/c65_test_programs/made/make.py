"""Writes data/, args and stdout: programs with what they write by C90, computed here and never by the compiler under test.

The statements' program alone is run by the C compiler of the machine; it does nothing on which the widths of types bear.
"""
import os
import subprocess
import tempfile
import forms
import operators
import shapes
from arithmetic import KINDS

TOP = os.path.dirname(os.path.dirname(os.path.abspath(__file__)))


def by_the_machines_compiler(source):
    with tempfile.TemporaryDirectory() as folder:
        with open(folder + '/it.c', 'w') as it:
            it.write(source)
        subprocess.run(['cc', '-std=c90', '-funsigned-char', '-w', '-o', folder + '/it', folder + '/it.c'], check=True)
        done = subprocess.run([folder + '/it'], capture_output=True, text=True)
        return done.stdout + 'status %d\n' % done.returncode


def ended(made):
    return made[0], made[1] + 'status 0\n'


def programs():
    for nth, kind in enumerate(KINDS):
        for name in ('operators', 'assignments', 'constants'):
            source, wanted = getattr(operators, name)(kind)
            yield '%s_%s' % (name, kind), source, wanted + 'status 0\n'
    for name, made in [('folded', operators.folded()), ('conversions', operators.conversions()), ('steps_narrow', operators.steps(KINDS[:4])),
                       ('steps_wide', operators.steps(KINDS[4:])), ('pointers_1', shapes.pointers(shapes.ELEMENTS[:3])), ('pointers_2', shapes.pointers(shapes.ELEMENTS[3:])),
                       ('switches', shapes.switches()), ('calls_1', shapes.calls_program(1)), ('calls_2', shapes.calls_program(2)),
                       ('long_bodies', forms.long_bodies()), ('frames', forms.frames()), ('nested', forms.nested()),
                       ('waiting', forms.waiting())]:
        yield name, *ended(made)
    for nth, widths in enumerate((range(1, 5), range(5, 9), range(9, 12), range(12, 17))):
        yield 'fields_signed_%d' % nth, *ended(shapes.fields(True, widths))
        yield 'fields_unsigned_%d' % nth, *ended(shapes.fields(False, widths))
    yield 'statements', forms.STATEMENTS, by_the_machines_compiler(forms.STATEMENTS)
    yield from forms.REFUSED


def main():
    names, wanted = [], []
    for name, source, text in programs():
        names.append(name + '.c')
        wanted.append('== %s.c\n%s' % (name, text))
        with open('%s/data/%s.c' % (TOP, name), 'w') as it:
            it.write(source)
    for name, text in (('args', '\n'.join(names) + '\n'), ('stdout', ''.join(wanted))):
        with open('%s/%s' % (TOP, name), 'w') as it:
            it.write(text)


main()
