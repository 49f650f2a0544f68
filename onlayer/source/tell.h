// What onlayer itself says: on standard error, or into the file of --log.
#pragma once
#include <string>

bool tell_to(const std::string &path);
int told_where();
void tell(const std::string &lines);
