// A caller in C++: reads a document from standard input and writes it as a walk shows it, value by value. checks/ffi runs it.
#include "jiter_c.h"

#include <iostream>
#include <iterator>
#include <string>

namespace {

// A document and the walk through it, freed with it.
class Walk {
public:
  explicit Walk(const std::string &json) : walk(), fault() {
    JiterDocument document = JiterDocument();
    ok = jiter_document_parse(&document, json.data(), json.size(), false, JITER_OFF, true, &fault) &&
         jiter_walk_new(&walk, &document, &fault);
    jiter_document_free(&document);
  }
  ~Walk() { jiter_walk_free(&walk); }

  void show(std::ostream &to) {
    if (ok)
      show(to, *walk.nodes);
    else
      to << "fault " << fault.kind << " at " << fault.index;
    to << '\n';
  }

private:
  Walk(const Walk &);
  Walk &operator=(const Walk &);

  static std::string bytes(JiterText text) { return std::string(text.bytes, text.length); }

  void show(std::ostream &to, const JiterNode &node) {
    if (node.key_length)
      to << bytes(jiter_value_key(&walk, &node)) << ':';
    switch (node.kind) {
    case JITER_NULL:
      to << "null";
      break;
    case JITER_BOOL:
      to << (node.truth ? "true" : "false");
      break;
    case JITER_INT:
      to << node.integer;
      break;
    case JITER_ARRAY:
    case JITER_OBJECT:
      parts(to, node);
      break;
    default:
      to << bytes(jiter_value_text(&walk, &node));
    }
  }

  void parts(std::ostream &to, const JiterNode &node) {
    const char *comma = "";
    to << (node.kind == JITER_ARRAY ? '[' : '{');
    for (const JiterNode *child = jiter_value_first_child(&node); child; child = jiter_value_next_sibling(child)) {
      to << comma;
      comma = ",";
      show(to, *child);
    }
    to << (node.kind == JITER_ARRAY ? ']' : '}');
  }

  JiterWalk walk;
  JiterFault fault;
  bool ok;
};

} // namespace

int main() {
  std::string json((std::istreambuf_iterator<char>(std::cin)), std::istreambuf_iterator<char>());
  Walk walk(json);
  walk.show(std::cout);
  return 0;
}
