"""For slice_map.sh, which protects you from names in a set: reads a page and a drawing of parv-map. Each element must
be closed, and nothing may be loaded from elsewhere. Prints the texts."""
import html.parser
import xml.etree.ElementTree


class Page(html.parser.HTMLParser):
    def __init__(self):
        super().__init__()
        self.open, self.cells, self.texts = [], 0, []

    def handle_starttag(self, tag, attributes):
        assert tag in ("html head meta title style body p svg path text h2 details summary ul li").split(), tag
        assert not {"src", "href", "onload"} & dict(attributes).keys()
        self.cells += tag == "title" and self.open[-1] == "path"
        if tag != "meta":
            self.open.append(tag)

    def handle_startendtag(self, tag, attributes):
        self.handle_starttag(tag, attributes)
        self.open.pop()

    def handle_endtag(self, tag):
        assert self.open.pop() == tag

    def handle_data(self, data):
        self.texts.append(data)


page = Page()
with open("page.html", encoding="ascii") as file:
    page.feed(file.read())
page.close()
assert page.open == [], page.open
drawing = xml.etree.ElementTree.parse("drawing.svg")
print(page.cells)
print(*[text for text in page.texts if text.strip() and not text.startswith("body{")], sep="\n")
print(*[node.text for node in drawing.iter() if node.tag.endswith("}text")], sep="\n")
