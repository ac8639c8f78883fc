"""Programs of one shape, as large as is asked: their files by their paths. Each takes a number."""


def chain(number):
    """Classes that each extend the one before; the last one uses members of the first."""
    sources = {"chain/C0.java": b"package chain;\nclass C0 {\n  int first;\n  int f(int x) { return first + x; }\n}\n"}
    for k in range(1, number):
        body = "  int g() { return this.first + f(1); }\n" if k == number - 1 else ""
        sources[f"chain/C{k}.java"] = f"package chain;\nclass C{k} extends C{k - 1} {{\n{body}}}\n".encode()
    return sources


def wide(number):
    """A class of so many fields, and a method that uses each."""
    fields = "".join(f"  int f{k};\n" for k in range(number))
    uses = "".join(f"    sum += f{k};\n" for k in range(number))
    return {"wide/Wide.java": f"package wide;\nclass Wide {{\n{fields}  int sum() {{\n    int sum = 0;\n{uses}    return sum;\n  }}\n}}\n".encode()}


def used(number):
    """So many uses of one class of another package, of a field and of a method."""
    uses = "".join("    total = add(Item.price, total);\n" for _ in range(number))
    return {"shop/goods/Item.java": b"package shop.goods;\npublic class Item {\n  public static int price = 1;\n}\n",
            "shop/Till.java": f"package shop;\nimport shop.goods.Item;\nclass Till {{\n  int total;\n  int add(int a, int b) {{ return a + b; }}\n"
                              f"  void sell() {{\n{uses}  }}\n}}\n".encode()}


def overriding(number):
    """A method with so many declarations, each in a class of its own that extends the one of the first."""
    sources = {"over/Base.java": b"package over;\nclass Base {\n  int size(int a, int b) { return a + b; }\n}\n"}
    for k in range(1, number):
        sources[f"over/O{k}.java"] = f"package over;\nclass O{k} extends Base {{\n  int size(int a, int b) {{ return super.size(b, {k}); }}\n}}\n".encode()
    return sources


def overriding_in_chain(number):
    """A method with so many declarations, each in a class that extends the one of the declaration before."""
    sources = {"over/C0.java": b"package over;\nclass C0 {\n  int size(int a, int b) { return a + b; }\n}\n"}
    for k in range(1, number):
        sources[f"over/C{k}.java"] = f"package over;\nclass C{k} extends C{k - 1} {{\n  int size(int a, int b) {{ return super.size(b, {k}); }}\n}}\n".encode()
    return sources


def ended_by(number, line, first=""):
    """Classes that each extend the one before, with such members in the first, and in the last one as many such lines; beside them a class
    `Util`."""
    lines = f"    {line}\n" * number
    sources = {"chain/C0.java": f"package chain;\nclass C0 {{\n{first}}}\n".encode(),
               "chain/Util.java": b"package chain;\nclass Util {\n  static int f() { return 1; }\n}\n"}
    for k in range(1, number):
        body = f"  void make() {{\n{lines}  }}\n" if k == number - 1 else ""
        sources[f"chain/C{k}.java"] = f"package chain;\nclass C{k} extends C{k - 1} {{\n{body}}}\n".encode()
    return sources


def named_in_chain(number):
    """A chain of classes with lines that name the first, which no field of them all hides."""
    return ended_by(number, "new C0();")


def static_in_chain(number):
    """A chain of classes with calls of a static method of another class."""
    return ended_by(number, "Util.f();")


def outside_in_chain(number):
    """A chain of classes with calls of a method that none of them declares."""
    return ended_by(number, "hashCode();")


def inherited_in_chain(number):
    """A chain of classes with calls of a method of the first."""
    return ended_by(number, "f();", "  int f() { return 1; }\n")


def often_declared_in_chain(number):
    """A chain of classes of which the first twenty declare a method, with calls of it in the last."""
    sources = ended_by(number, "f();", "  int f() { return 0; }\n")
    for k in range(1, 20):
        sources[f"chain/C{k}.java"] = f"package chain;\nclass C{k} extends C{k - 1} {{\n  int f() {{ return {k}; }}\n}}\n".encode()
    return sources


def named_alike_in_chain(number):
    """A chain of classes with a method each, and as many classes by themselves whose methods have the same names."""
    sources = {"chain/C0.java": b"package chain;\nclass C0 {\n}\n"}
    for k in range(1, number):
        sources[f"chain/C{k}.java"] = f"package chain;\nclass C{k} extends C{k - 1} {{\n  int f{k}() {{ return {k}; }}\n}}\n".encode()
        sources[f"chain/D{k}.java"] = f"package chain;\nclass D{k} {{\n  int f{k}() {{ return {k}; }}\n}}\n".encode()
    return sources


SHAPES = (("chain of classes", chain, 4000), ("fields of a class", wide, 10000), ("uses of three names", used, 10000),
          ("declarations of a method", overriding, 2000), ("declarations of a method in a chain of classes", overriding_in_chain, 4000),
          ("names in a chain of classes", named_in_chain, 4000),
          ("static calls in a chain of classes", static_in_chain, 4000),
          ("calls of `Object` in a chain of classes", outside_in_chain, 4000),
          ("inherited calls in a chain of classes", inherited_in_chain, 4000),
          ("calls of a method of twenty classes in a chain of classes", often_declared_in_chain, 4000),
          ("methods in a chain of classes with names of others", named_alike_in_chain, 2000))
