from belfrychest import Node, Question, Relation, Ticket, ask, words, write_book

# A book of the field from above: its zones and its samples, each under a tag.
ZONE, SAMPLE, WELL = 2, 3, 4
book = write_book({
    ZONE: words([Node(5, 2, 10, 2), Node(5, 3, 7, 3)]),
    SAMPLE: words([Node(5, 4, 6, 4), Node(5, 8, 9, 3)]),
})

questions = {
    "samples": Question(ZONE, SAMPLE),
    "wells": Question(ZONE, WELL),
    "samples directly inside": Question(
        ZONE, SAMPLE, Ticket.fresh(relation=Relation.DIRECTLY)),
}
for name, reply in zip(questions, ask(book, questions.values())):
    if reply.pairs is None:
        print(f"{name}: refused {reply.verdict.answer.name}")
    else:
        pairs = [f"{zone.start} holds {sample.start}" for zone, sample in reply.pairs]
        print(f"{name}: {', '.join(pairs)}")
