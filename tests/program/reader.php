<?php
foreach (parse_ini_file($argv[1], true, INI_SCANNER_NORMAL) as $section => $pairs) {
    if (is_array($pairs)) foreach ($pairs as $key => $value) echo "$section\0$key\0$value\0";
}
