"""A first session of the client, over the store reagents.db."""

import chemdb

with chemdb.run("reagents.db", "./chemdb") as db:
    db.register(101, "CC(=O)Cl")
    db.register(102, "OC(=O)c1ccccc1")
    for hit in db.search("C=O"):
        print(hit, db.show(hit).text)
    try:
        db.register(103, "Cc1cccc1")
    except chemdb.RefusedSmilesAromatic as refused:
        print("atom", refused.position, "of:", refused.line)
    loaded = db.load([(104, "CCO"), (105, "C("), (106, "CCN")])
    print(loaded.registered, "registered")
    for failed in loaded.refused:
        print("not taken:", failed.number, failed.text, failed.error.reply)
    print(db.stats())
