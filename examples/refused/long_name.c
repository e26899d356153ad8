// refused LongName 6 line 2
int a_name_of_sixty_four_bytes_which_is_one_more_than_there_may_be__;
