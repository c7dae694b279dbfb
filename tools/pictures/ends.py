"""What is said of a search that found no plan, as docs/SOLVES.md says it: the numbers of the search, and what they mean."""
from planex import Exhausted, NodeLimit, ShapeLimit

MAY_BE = 'There may be a plan.'


def said_of(reply):
    """The numbers of a search that found no plan, and what is meant by its end; two empty texts for any other reply."""
    if isinstance(reply, Exhausted):
        return '', ('No list of the moves of this search reaches the goal. It is no proof that there is no plan: one more goal atom, or a '
                    'smaller goal first, may help (docs/SOLVES.md).')
    if isinstance(reply, NodeLimit):
        return (f'Nodes that were looked at: {reply.nodes:,}, as many as allowed. None of them is solved. Moves that reach the next one: '
                f'{reply.moves:,}.',
                f'{MAY_BE} In versions 1 and 2, write script 3 at the head. In version 3, try a greater weight, up to 1000; more nodes, '
                'up to 1,000,000; predicates that tell kinds of things apart; or a part of the goal at a time (docs/SOLVES.md).')
    if isinstance(reply, ShapeLimit):
        return (f'Shapes of unfinished proofs that a question to the prover met: {reply.shapes:,}, as many as allowed.',
                f'{MAY_BE} It isn\'t known which moves there are. Allow more shapes (70,000 at most), or less height (docs/SOLVES.md).')
    return '', ''
