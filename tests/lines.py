"""The lines that the replay program prints for answers."""

from reference import (
    DONE, LEFT_OUT, Figures, Mended, Reading, Refused, Taken, Verdict, bits, tag_and_whole_numbers)


def floats_part(figures):
    """R I F D: the four floats as the 16 hexadecimal digits of their bits."""
    return "%016x %016x %016x %016x" % (bits(figures.peak_re), bits(figures.peak_im),
                                        bits(figures.frequency), bits(figures.rocof))


def figures_line(figures):
    """figures re im d1 d2 mark R I F D."""
    return "figures %d %d %d %d %d %s" % (figures.re, figures.im, figures.d1, figures.d2,
                                          figures.mark, floats_part(figures))


def report_line(report):
    """report SOC frame re im d1 d2 mark R I F D."""
    return "report %s %s" % (tag_and_whole_numbers(report), floats_part(report.figures))


def mended_line(fates):
    """mended, and for each slot its word and its count."""
    return "mended " + " ".join("%s/%d" % fate for fate in fates)


def answer_line(answer):
    """The line of any answer of the model."""
    if answer in (DONE, LEFT_OUT):
        return answer
    if isinstance(answer, Refused):
        return "refused %d" % answer.number
    if isinstance(answer, Figures):
        return figures_line(answer)
    if isinstance(answer, Taken):
        return report_line(answer.report) if answer.report else "taken"
    if isinstance(answer, Mended):
        return mended_line(answer.fates)
    if isinstance(answer, Reading):
        return "reading %d %d %d %d %d" % (*answer.device, answer.quality)
    assert isinstance(answer, Verdict)
    return "verdict %d %d %d" % answer
