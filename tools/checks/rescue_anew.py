#!/usr/bin/env python3
"""For rescue.sh, which protects what parv-rescue copies: runs parv-rescue so that it begins its search again after each
match that it has had. The variable `commands` names the folder of the command's modules."""
import os
import sys
sys.path.insert(0, os.environ["commands"])
from parv_commands.common import search
from parv_commands.rescue import command as rescue
search.WASTE = 0
sys.exit(rescue.main())
